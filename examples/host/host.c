/*
 * An example of a host: a small box. It plans a list, plays a script of arrivals tick by tick, and prints what the calls
 * answer; then it asks for what is refused, and shows that no byte that it lent has changed.
 */
#include <stdio.h>
#include <string.h>

#include "yagomila.h"

#define CORES 2
#define TASKS 3
#define TABLE_LEN (TASKS * YAGOMILA_TASK_BYTES)
/* The box is played for so many ticks. */
#define TICKS 13

/* Cost and period of each task: a run takes its whole cost here. */
static const uint32_t tasks[TASKS][2] = {{2, 3}, {2, 3}, {2, 3}};

/* The script: when a run arrives, and of which task. Task 3 comes a tick early at 2, and there is no task 4. */
static const struct {
    uint64_t time;
    size_t task;
} arrivals[] = {{0, 1}, {0, 2}, {0, 3}, {2, 3}, {3, 1}, {3, 2}, {6, 3}, {8, 2}, {9, 4}, {9, 3}, {12, 1}};

#define ARRIVALS (sizeof arrivals / sizeof arrivals[0])

/* All that is lent to the calls, in one place, so that it can be compared as a whole. */
static struct {
    yagomila_record held;
    yagomila_choice choice;
    uint64_t deadline;
    int64_t late;
    int64_t len;
    size_t core;
    uint8_t table[TABLE_LEN];
    uint8_t buf[YAGOMILA_LISTING_MAX];
} lent, before;

/* What each core runs, and the ticks that each task's oldest run has had: a real box knows both by itself. */
static yagomila_choice running[CORES + 1];
static uint32_t ticks_had[TASKS + 1];
static int wrong;

/* A number as the table wants it, whatever the host's own order of bytes. */
static void put_number(uint8_t *at, uint32_t number)
{
    int k;
    for (k = 0; k < 4; k++)
        at[k] = (uint8_t)(number >> (8 * k));
}

static void put_table(void)
{
    size_t i;
    for (i = 0; i < TASKS; i++) {
        put_number(lent.table + YAGOMILA_TASK_BYTES * i, tasks[i][0]);
        put_number(lent.table + YAGOMILA_TASK_BYTES * i + 4, tasks[i][1]);
    }
}

/* A run arrives; an early one is held, and no look names it before its time. What is refused is dropped here. */
static void release(size_t task, uint64_t now)
{
    uint32_t refusal = yagomila_release(&lent.held, task, now, &lent.core, &lent.deadline);
    printf("at %lu release %lu: ", (unsigned long)now, (unsigned long)task);
    if (refusal != 0)
        printf("refused %lu\n", (unsigned long)refusal);
    else
        printf("core %lu deadline %lu\n", (unsigned long)lent.core, (unsigned long)lent.deadline);
}

/* A task's oldest run ends. */
static void finish(size_t task, uint64_t now)
{
    uint32_t refusal = yagomila_finish(&lent.held, task, now, &lent.late);
    printf("at %lu finish %lu: ", (unsigned long)now, (unsigned long)task);
    if (refusal != 0)
        printf("refused %lu\n", (unsigned long)refusal);
    else
        printf("late %ld\n", (long)lent.late);
}

/* A core is told what to run; where that is something else than before, a real box switches there. */
static void look(size_t core, uint64_t now)
{
    static const char *const kinds[] = {"idle", "fixed", "lower", "upper"};
    const yagomila_choice *choice = &lent.choice;
    if (yagomila_look(&lent.held, core, now, &lent.choice) != 0) {
        wrong = 1; /* the core and the time are this program's own, so no look is refused */
        return;
    }
    if (memcmp(&running[core], choice, sizeof *choice) == 0)
        return;
    running[core] = *choice;
    printf("at %lu look %lu: %s", (unsigned long)now, (unsigned long)core, kinds[choice->kind]);
    if (choice->kind != YAGOMILA_IDLE)
        printf(" %lu deadline %lu", (unsigned long)choice->task, (unsigned long)choice->deadline);
    printf("\n");
}

/* Each core runs its choice for a tick; a run that has had its length ends at the next tick. */
static void run_tick(uint64_t now)
{
    size_t core;
    for (core = 1; core <= CORES; core++) {
        size_t task = running[core].task;
        if (running[core].kind == YAGOMILA_IDLE || ++ticks_had[task] < tasks[task - 1][0])
            continue;
        ticks_had[task] = 0;
        finish(task, now + 1);
    }
}

static void play(void)
{
    uint64_t now;
    size_t i, core;
    for (now = 0; now < TICKS; now++) {
        for (i = 0; i < ARRIVALS; i++)
            if (arrivals[i].time == now)
                release(arrivals[i].task, now);
        for (core = 1; core <= CORES; core++)
            look(core, now);
        run_tick(now);
    }
}

/* A line for a call that is refused: what it answers, and whether any byte has changed that was lent. */
static void refused(const char *what, int64_t answer, int64_t expected)
{
    int same = memcmp(&before, &lent, sizeof lent) == 0;
    printf("%s answers %ld, %s changed\n", what, (long)answer, same ? "nothing" : "something");
    if (answer != expected || !same)
        wrong = 1;
}

/* Refusals of the calls on the record; its clock is at 13, and task 2 has a run that is held until 16. */
static void ask_dispatcher(size_t listing_len)
{
    yagomila_record *held = &lent.held;
    memcpy(&before, &lent, sizeof lent);
    refused("start on 17 cores", yagomila_start(held, 17, lent.table, TABLE_LEN), YAGOMILA_REFUSED_CORES);
    refused("start with no table", yagomila_start(held, CORES, NULL, 0), YAGOMILA_REFUSED_TABLE);
    refused("start with a table cut short", yagomila_start(held, CORES, lent.table, TABLE_LEN - 1), YAGOMILA_REFUSED_TABLE);
    refused("start on 1 core", yagomila_start(held, 1, lent.table, TABLE_LEN), YAGOMILA_REFUSED_WEIGHTS);
    refused("release of task 4", yagomila_release(held, 4, 13, &lent.core, &lent.deadline), YAGOMILA_REFUSED_NO_TASK);
    refused("release past the clock's limit", yagomila_release(held, 1, UINT64_MAX, &lent.core, &lent.deadline), YAGOMILA_REFUSED_CLOCK);
    refused("release before the clock", yagomila_release(held, 1, 12, &lent.core, &lent.deadline), YAGOMILA_REFUSED_PAST);
    refused("finish of task 0", yagomila_finish(held, 0, 13, &lent.late), YAGOMILA_REFUSED_NO_TASK);
    refused("finish before the clock", yagomila_finish(held, 1, 12, &lent.late), YAGOMILA_REFUSED_PAST);
    refused("finish of no run", yagomila_finish(held, 3, 13, &lent.late), YAGOMILA_REFUSED_NO_RUN);
    refused("finish of a held run", yagomila_finish(held, 2, 15, &lent.late), YAGOMILA_REFUSED_NO_RUN);
    refused("look at core 3", yagomila_look(held, 3, 13, &lent.choice), YAGOMILA_REFUSED_NO_CORE);
    refused("look before the clock", yagomila_look(held, 1, 12, &lent.choice), YAGOMILA_REFUSED_PAST);
    refused("list in a buffer one byte short", yagomila_list(held, lent.buf, listing_len - 1, &lent.len), YAGOMILA_REFUSED_BUFFER);
    refused("list in no buffer", yagomila_list(held, NULL, 0, &lent.len), YAGOMILA_REFUSED_BUFFER);
}

/* A record before its start, of zeros here, is unsound, as one is that was changed. */
static void ask_unsound(void)
{
    yagomila_record *held = &lent.held;
    memset(held, 0, sizeof *held);
    memcpy(&before, &lent, sizeof lent);
    refused("release on a record of zeros", yagomila_release(held, 1, 13, &lent.core, &lent.deadline), YAGOMILA_REFUSED_UNSOUND);
    refused("finish on a record of zeros", yagomila_finish(held, 1, 13, &lent.late), YAGOMILA_REFUSED_UNSOUND);
    refused("look on a record of zeros", yagomila_look(held, 1, 13, &lent.choice), YAGOMILA_REFUSED_UNSOUND);
    refused("list of a record of zeros", yagomila_list(held, lent.buf, sizeof lent.buf, &lent.len), YAGOMILA_REFUSED_UNSOUND);
}

/* Refusals of the two calls that need no record; a listing's are negative. */
static void ask_table(size_t listing_len)
{
    const uint8_t *table = lent.table;
    refused("admit on 1 core", yagomila_admit(1, table, TABLE_LEN), YAGOMILA_REFUSED_WEIGHTS);
    refused("admit of no table", yagomila_admit(CORES, NULL, 0), YAGOMILA_REFUSED_TABLE);
    refused("admit on 0 cores", yagomila_admit(0, table, TABLE_LEN), YAGOMILA_REFUSED_CORES);
    refused("listing on 17 cores", yagomila_listing(17, table, TABLE_LEN, lent.buf, sizeof lent.buf), -YAGOMILA_REFUSED_CORES);
    refused("listing of a table cut short", yagomila_listing(CORES, table, TABLE_LEN - 1, lent.buf, sizeof lent.buf), -YAGOMILA_REFUSED_TABLE);
    refused("listing on 1 core and in no buffer", yagomila_listing(1, table, TABLE_LEN, NULL, 0), -YAGOMILA_REFUSED_WEIGHTS);
    refused("listing in a buffer one byte short", yagomila_listing(CORES, table, TABLE_LEN, lent.buf, listing_len - 1), -YAGOMILA_REFUSED_BUFFER);
    refused("listing in no buffer", yagomila_listing(CORES, table, TABLE_LEN, NULL, 0), -YAGOMILA_REFUSED_BUFFER);
}

int main(void)
{
    uint32_t refusal;
    size_t listing_len;
    put_table();

    refusal = yagomila_start(&lent.held, CORES, lent.table, TABLE_LEN);
    if (refusal == 0)
        refusal = yagomila_list(&lent.held, lent.buf, sizeof lent.buf, &lent.len);
    if (refusal != 0) {
        printf("refused %lu\n", (unsigned long)refusal);
        return 1;
    }
    listing_len = (size_t)lent.len;
    fwrite(lent.buf, 1, listing_len, stdout);

    play();
    /* two readings at once, and a job that says once too often that it is done: its second run is held until 16 */
    release(2, TICKS);
    release(2, TICKS);
    finish(2, TICKS);
    finish(2, TICKS);

    ask_dispatcher(listing_len);
    ask_unsound();
    ask_table(listing_len);
    return wrong;
}
