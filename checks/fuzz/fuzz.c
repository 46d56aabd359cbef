/*
 * A host for a fuzzer, whose input is: a core count, a buffer's length, a record or none, a table, and a script of calls on
 * that one record, among them some that overwrite it. Each call is made twice: of the product, and of the oracle on a copy of
 * all that is lent. An answer or a byte that is another is said and ends the process by abort(). Compiled with ALONE there is no
 * oracle; with TRACE in its environment each call is printed, for the two to be compared.
 */
#define _DEFAULT_SOURCE
#include <inttypes.h>
#include <signal.h>
#include <stdio.h>
#include <stdlib.h>
#include <string.h>

#include "input.h"
#include "lent.h"
#include "sides.h"
#include "yagomila.h"

#define CLOCK_MOST 1000000000000u
#define CALLS_MOST 128

int LLVMFuzzerInitialize(int *argc, char ***argv);
int LLVMFuzzerTestOneInput(const uint8_t *input, size_t len);

/* What the input lends. */
static yagomila_record *held;
static size_t buf_len;
static uint32_t cores;

/* Whether start and calls alone made the record; whether it was overwritten since; the one before that. */
static int honest, spoilt, kept_honest;
static yagomila_record kept;

/* Whether calls are printed. */
static int traced;

static void demand(int holds, const char *what)
{
    if (holds)
        return;
    fprintf(stderr, "against the header: %s\n", what);
    abort();
}

/* A call's time: soon after the clock, or where a refusal, a deadline or the release of a held run is near, or any. */
static uint64_t time_of(uint8_t how, uint64_t task)
{
    size_t i = (size_t)(task - 1) % YAGOMILA_TASKS_MAX;
    uint64_t time;
    switch (how) {
    case 1:
        return held->clock + 256 * (uint64_t)byte();
    case 2:
        return held->tasks[i].last_release + held->plan.lines[i].period;
    case 3:
        return held->tasks[i].last_release + held->plan.lines[i].period - 1;
    case 4:
        return held->tasks[i].deadlines[0];
    case 5:
        return held->clock - 1;
    case 6:
        return CLOCK_MOST - byte();
    case 7:
        return CLOCK_MOST + 1 + byte();
    case 8:
        bytes(&time, sizeof time);
        return time;
    case 9:
        return held->tasks[i].deadlines[0] - held->plan.lines[i].period;
    case 10:
        return held->tasks[i].deadlines[0] - held->plan.lines[i].period - 1;
    case 11:
        return CLOCK_MOST - held->plan.lines[i].period;
    default:
        return held->clock + byte();
    }
}

/* Makes a call of the product, then of the oracle, and holds one against the other. The answer: a refusal is below 0. */
static int64_t make(const char *name, int64_t (*call)(const struct side *))
{
    int64_t answer;
    copy_all();
    answer = call(product);
    if (traced)
        printf("%s %" PRId64 " %016" PRIx64 "\n", name, answer, checksum());
    demand(answer >= 0 || same_all(), "a byte changed on a refusal");
    demand(answer != -YAGOMILA_REFUSED_UNSOUND || !honest, "15 after start and calls alone");
    demand(answer != -YAGOMILA_REFUSED_EARLY, "9, which is never given");
    if (oracle != NULL) {
        demand(call(oracle) == answer, "another answer than the second program's");
        demand(same_all(), "a byte that is lent is another than the second program's");
    }
    return answer;
}

/* Reads a task or a core, and a time. */
static void ask(uint8_t how)
{
    uint64_t first = number();
    asked.number = (size_t)first;
    asked.time = time_of(how, first);
}

static void call_release(uint8_t how)
{
    ask(how);
    lend(ANSWER, sizeof(size_t));
    lend(SECOND, sizeof(uint64_t));
    make("release", release);
}

static void call_finish(uint8_t how)
{
    ask(how);
    lend(ANSWER, sizeof(int64_t));
    make("finish", finish);
}

static void call_look(uint8_t how)
{
    ask(how);
    lend(ANSWER, sizeof(yagomila_choice));
    make("look", look);
}

/* The input's core count, or any. */
static uint32_t cores_of(uint8_t how)
{
    return how == 1 ? (uint32_t)number() : cores;
}

static void call_start(uint8_t how)
{
    asked.cores = cores_of(how);
    if (make("start", start) >= 0) {
        honest = 1;
        spoilt = 0;
    }
}

static void call_admit(uint8_t how)
{
    asked.cores = cores_of(how);
    make("admit", admit);
}

/* A buffer's length: the input's, or about the listing's. */
static size_t room_of(uint8_t how, int64_t length)
{
    return how == 0 || length <= 0 ? buf_len : (size_t)(length + how % 4 - 2);
}

static int64_t list_in(size_t room, const char *name, int64_t (*call)(const struct side *))
{
    asked.buf_len = room;
    lend(BUFFER, room);
    lend(ANSWER, sizeof(int64_t));
    return make(name, call);
}

/* A listing in a buffer that is long enough, then in one that may not be. */
static void list_twice(const char *name, int64_t (*call)(const struct side *), uint8_t how)
{
    int64_t length = list_in(BUFFER_MOST, name, call);
    demand(length <= YAGOMILA_LISTING_MAX, "a listing is longer than the longest");
    list_in(room_of(how, length), name, call);
    lend(BUFFER, 0);
}

static void call_list(uint8_t how)
{
    list_twice("list", list, how);
}

static void call_listing(uint8_t how)
{
    asked.cores = cores;
    list_twice("listing", listing, how);
}

/* A place in the record: of the plan's first numbers, of a task's line, of the clock, or of what a task is at. */
static size_t place(void)
{
    uint8_t where = byte(), within = byte();
    size_t task = where / 4;
    switch (where % 4) {
    case 0:
        return within % offsetof(yagomila_plan, lines);
    case 1:
        return offsetof(yagomila_plan, lines) + task * sizeof(yagomila_line) + within % sizeof(yagomila_line);
    case 2:
        return offsetof(yagomila_record, clock) + within % sizeof(uint64_t);
    default:
        return offsetof(yagomila_record, tasks) + task * sizeof(yagomila_task) + within % sizeof(yagomila_task);
    }
}

/* Overwrites one, two, four or eight bytes of the record: by any number, or by theirs and a little more or less. */
static void overwrite(uint8_t how)
{
    size_t width = (size_t)1 << how % 4;
    uint8_t *at = (uint8_t *)held + place() / width * width;
    uint64_t value = 0;
    if (!spoilt) {
        kept = *held;
        kept_honest = honest;
    }
    if (how / 4 % 2 == 0) {
        value = number();
    } else {
        memcpy(&value, at, width);
        value += (uint64_t)(int8_t)byte();
    }
    memcpy(at, &value, width);
    spoilt = 1;
    honest = 0;
}

/* Back to the record before the overwritings. */
static void mend(uint8_t how)
{
    (void)how;
    *held = kept;
    spoilt = 0;
    honest = kept_honest;
}

/* The input's own record, of so many lines and tasks and zeros past them; or filled bytes. */
static void take_record(void)
{
    size_t tasks = byte() % (YAGOMILA_TASKS_MAX + 1);
    held = lend(RECORD, sizeof *held);
    if (tasks != 0) {
        memset(held, 0, sizeof *held);
        bytes(&held->plan, offsetof(yagomila_plan, lines) + tasks * sizeof held->plan.lines[0]);
        bytes(&held->clock, sizeof held->clock);
        bytes(held->tasks, tasks * sizeof held->tasks[0]);
    }
    kept = *held;
    honest = spoilt = kept_honest = 0;
}

/* The input's table: its length, and its bytes, or so many tasks of it, which then stand in it again and again. */
static void take_table(void)
{
    uint8_t *room;
    size_t given, i;
    asked.table_len = byte();
    asked.table_len = (asked.table_len + 256u * byte()) % (TABLE_MOST + 1);
    given = YAGOMILA_TASK_BYTES * (size_t)byte();
    room = lend(TABLE, asked.table_len);
    for (i = 0; i < asked.table_len; i++)
        room[i] = given == 0 || i < given ? byte() : room[i - given];
}

/* A call of the script: which, and how its numbers are read. */
static void next_call(void)
{
    static void (*const calls[16])(uint8_t) = {
        call_start, call_release, call_finish, call_look, call_list, call_admit, call_listing, overwrite, mend,
        call_release, call_finish, call_look, call_release, call_finish, call_look, call_release,
    };
    uint8_t call = byte();
    calls[call % 16](call / 16);
}

/* A trap ends the process as a wrong answer does; libFuzzer would not save its input. */
static void trapped(int number)
{
    (void)number;
    demand(0, "a trap");
}

int LLVMFuzzerInitialize(int *argc, char ***argv)
{
    (void)argc;
    (void)argv;
    make_rooms();
    traced = getenv("TRACE") != NULL;
    signal(SIGTRAP, trapped);
    return 0;
}

int LLVMFuzzerTestOneInput(const uint8_t *input, size_t len)
{
    int i;
    read_from(input, len);
    cores = (uint32_t)number();
    buf_len = byte();
    buf_len = (buf_len + 256u * byte()) % (BUFFER_MOST + 1);
    take_record();
    take_table();
    lend(BUFFER, 0);
    lend(ANSWER, 0);
    lend(SECOND, 0);
    for (i = 0; i < CALLS_MOST && is_left(); i++)
        next_call();
    /* What the last of them left is asked too. */
    call_look(0);
    return 0;
}
