/*
 * Yagomila's calls for the box's host: two that ask of a table, and the dispatcher on a record that the host lends.
 *
 * A table is bytes, eight for a task: the task's cost in ticks, then its period in ticks, each as four bytes, least
 * byte first. Tasks and cores are numbered from 1, tasks in the order of the table. `cores` is the number of equal
 * cores. Times are ticks since the plan, at most 1,000,000,000,000.
 *
 * Of every call:
 * - Any number, any table and any bytes of a lent record get an answer: no value is undefined, and the first refusal
 *   that applies is given. A refusal changes no byte of what is lent; it may store the bytes that stood there, so what
 *   is lent to be written must be writable, and no other thread may write it meanwhile.
 * - Nothing is kept between calls but in the record, nothing is allocated, and no lock, file or clock is touched. Calls
 *   may run at the same time in several threads, as long as none writes what another reads.
 * - A table or a buffer may be null where its length is 0. Every other pointer is valid, aligned as its type is, and
 *   not null; what two pointers of one call lend does not overlap. What an answer is written to may hold anything
 *   before.
 * - A call needs stack: YAGOMILA_STACK_MAX bytes are enough. That is measured; the proofs say nothing of the stack.
 *
 * Link with libhost.a, which is for x86-64 Linux and needs memcpy, memset, memmove and memcmp alone.
 */
#ifndef YAGOMILA_H
#define YAGOMILA_H

#include <stddef.h>
#include <stdint.h>

#ifdef __cplusplus
extern "C" {
#endif

/* The core count is 0 or above 16. */
#define YAGOMILA_REFUSED_CORES 1
/* The table is empty, has over 64 tasks, or ends inside a task. */
#define YAGOMILA_REFUSED_TABLE 2
/* A task has cost 0, period 0, or a period above 1,000,000. */
#define YAGOMILA_REFUSED_TASK 3
/* A task's cost exceeds its period. */
#define YAGOMILA_REFUSED_COST 4
/* The common period of the tasks exceeds 1,000,000. */
#define YAGOMILA_REFUSED_PERIOD 5
/* The tasks together ask for more than there is. */
#define YAGOMILA_REFUSED_WEIGHTS 6
/* The task number is 0 or above the number of tasks. */
#define YAGOMILA_REFUSED_NO_TASK 7
/* The call's time is below the record's clock. */
#define YAGOMILA_REFUSED_PAST 8
/* Never given: a release less than a period after the task's last one is taken and held. A host may still name it. */
#define YAGOMILA_REFUSED_EARLY 9
/* A release while eight runs of the task are unfinished. */
#define YAGOMILA_REFUSED_BACKLOG 10
/* A finish of a task with no unfinished run, or whose oldest one is held. */
#define YAGOMILA_REFUSED_NO_RUN 11
/* The call's time, or the time until which a release is held, is above 1,000,000,000,000. */
#define YAGOMILA_REFUSED_CLOCK 12
/* The core number is 0 or above the number of cores. */
#define YAGOMILA_REFUSED_NO_CORE 13
/* The listing is longer than the lent buffer. */
#define YAGOMILA_REFUSED_BUFFER 14
/* The lent record is unsound: it is no record of a plan, or it was changed. */
#define YAGOMILA_REFUSED_UNSOUND 15

/* Cores, tasks, unfinished runs of a task, and a call's time in ticks, at most. */
#define YAGOMILA_CORES_MAX 16
#define YAGOMILA_TASKS_MAX 64
#define YAGOMILA_RUNS_MAX 8
#define YAGOMILA_CLOCK_MAX 1000000000000
/* The bytes of a task in a table. */
#define YAGOMILA_TASK_BYTES 8
/* A buffer of this many bytes is enough for the listing of any table that is taken. */
#define YAGOMILA_LISTING_MAX 15960
/* Free bytes of stack to have for a call: at least twice what any call took where it was measured. */
#define YAGOMILA_STACK_MAX 131072

/*
 * The record: the plan, the clock, and what each task is at. A host lends it to the calls; it may copy, store and
 * compare it, byte by byte, for it has no padding. It need not read it and must not change it: what is changed is
 * refused by 15, or is another record. Before yagomila_start it may hold any bytes.
 *
 * YAGOMILA_RECORD_LAYOUT moves whenever a field does: a record that was stored under another number is not for these
 * calls.
 */
#define YAGOMILA_RECORD_LAYOUT 1
#define YAGOMILA_RECORD_BYTES 14616

/* A task's line of the plan. Weight and shares count units, as many to a core as the common period has ticks. */
typedef struct {
    uint32_t cost;
    uint32_t period;
    uint32_t weight;
    uint32_t shares[YAGOMILA_CORES_MAX];
} yagomila_line;

/* The plan; lines past the last task are 0. */
typedef struct {
    uint32_t cores;
    uint32_t common_period;
    uint64_t task_count;
    yagomila_line lines[YAGOMILA_TASKS_MAX];
} yagomila_plan;

/*
 * What a task is at: its last release time, its unfinished runs' deadlines, oldest first, its turn counts and their
 * place in the turn cycle, the runs' cores, how many runs are unfinished, and 1 if it had a release, else 0.
 */
typedef struct {
    uint64_t last_release;
    uint64_t deadlines[YAGOMILA_RUNS_MAX];
    uint32_t turn_counts[YAGOMILA_CORES_MAX];
    uint32_t place;
    uint8_t cores[YAGOMILA_RUNS_MAX];
    uint16_t unfinished;
    uint16_t had_release;
} yagomila_task;

typedef struct {
    yagomila_plan plan;
    uint64_t clock;
    yagomila_task tasks[YAGOMILA_TASKS_MAX];
} yagomila_record;

/* The compiler lays the record out as the archive does: this does not compile where its size differs. */
typedef char yagomila_record_has_its_size[sizeof(yagomila_record) == YAGOMILA_RECORD_BYTES ? 1 : -1];

/* A core's choice: its kind, the task, and the deadline of the task's oldest unfinished run; an idle core has 0 and 0. */
typedef struct {
    uint64_t kind;
    uint64_t task;
    uint64_t deadline;
} yagomila_choice;

/* No task waits there. */
#define YAGOMILA_IDLE 0
/* A task that runs on that core alone. */
#define YAGOMILA_FIXED 1
/* A task that moves, on its first core. */
#define YAGOMILA_LOWER 2
/* A task that moves, on another of its cores. */
#define YAGOMILA_UPPER 3

/*
 * Whether a table is taken on so many cores: 0, or the refusal number, 1 to 6.
 */
uint32_t yagomila_admit(uint32_t cores, const uint8_t *table, size_t table_len);

/*
 * Plans a table and writes the plan's listing to the start of `buf`. Answers the listing's length in bytes, or the
 * refusal number made negative: -1 to -6 as yagomila_admit would give it, then -14 where the listing is longer than
 * `buf_len`. The listing is lines of ASCII, each ended by a newline; it is not ended by a zero byte. Bytes of `buf`
 * past the listing stay as they were; on a refusal all of them do.
 */
int64_t yagomila_listing(uint32_t cores, const uint8_t *table, size_t table_len, uint8_t *buf, size_t buf_len);

/*
 * The calls on a lent record. Each answers 0, and then has moved the record on and written its answer; or a refusal
 * number, and then has changed nothing.
 */

/* Plans a table: the record is fresh, with clock 0 and no runs. Refusals: 1 to 6. */
uint32_t yagomila_start(yagomila_record *held, uint32_t cores, const uint8_t *table, size_t table_len);

/*
 * A run of a task arrives: the core that it goes to, and its deadline. Its release time is the call's time, or a period
 * after the task's last release time where that is later: then it comes early, and is held until its release time. The
 * deadline is a period after the release time. Refusals: 15, 7, 12, 8, 12 for the time until which it is held, 10.
 */
uint32_t yagomila_release(yagomila_record *held, size_t task, uint64_t time, size_t *core, uint64_t *deadline);

/*
 * A task's oldest unfinished run ends: the time less its deadline, negative if early. Refusals: 15, 7, 12, 8, 11; a run
 * that is held cannot end.
 */
uint32_t yagomila_finish(yagomila_record *held, size_t task, uint64_t time, int64_t *late);

/* What a core is to run now; never a run that is held. Refusals: 15, 13, 12, 8. */
uint32_t yagomila_look(yagomila_record *held, size_t core, uint64_t time, yagomila_choice *choice);

/*
 * Writes the listing of the record's plan to the start of `buf`, as yagomila_listing does, and its length to `len`. The
 * record does not change. Refusals: 15, then 14 where the listing is longer than `buf_len`.
 */
uint32_t yagomila_list(const yagomila_record *held, uint8_t *buf, size_t buf_len, int64_t *len);

#ifdef __cplusplus
}
#endif

#endif
