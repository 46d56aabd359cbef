/*
 * The header's record is the archive's: no struct has padding, a start writes every byte of the record and none outside,
 * and after each call each field has the value that document 01's rules give it. The list is the document's own.
 */
#define _GNU_SOURCE
#include <stddef.h>

#include "lent.h"
#include "yagomila.h"

#define CORES 4
#define TASKS 6
#define TABLE_LEN (TASKS * YAGOMILA_TASK_BYTES)
#define CLOCK_MOST 1000000000000

/* Cost, period, weight, and the shares on cores 1 to 4: the document's listing. */
static const uint32_t lines[TASKS][3 + CORES] = {
    {5, 6, 5, 5, 0, 0, 0},
    {4, 6, 4, 0, 4, 0, 0},
    {2, 3, 4, 0, 0, 4, 0},
    {2, 3, 4, 0, 0, 0, 4},
    {2, 3, 4, 1, 2, 1, 0},
    {1, 2, 3, 0, 0, 1, 2},
};

static uint8_t table[TABLE_LEN];
static yagomila_record *held, wanted;

static void want(int holds, const char *what)
{
    if (holds)
        return;
    fprintf(stderr, "layout: %s\n", what);
    exit(1);
}

/* The record is the wanted one, byte by byte. */
static void want_same(const char *after)
{
    const uint8_t *is = (const uint8_t *)held, *should = (const uint8_t *)&wanted;
    size_t i;
    for (i = 0; i < sizeof wanted && is[i] == should[i]; i++)
        ;
    if (i == sizeof wanted)
        return;
    fprintf(stderr, "layout: after %s byte %lu of the record is %d, not %d\n", after, (unsigned long)i, is[i], should[i]);
    exit(1);
}

/* A field starts where the one before it ends; `at` is where the last one does. */
#define FIELD(type, field) \
    want(offsetof(type, field) == at, #type " has padding before " #field); \
    at += sizeof(((type *)0)->field)
#define END(type) \
    want(sizeof(type) == at, #type " has padding at its end"); \
    at = 0

static void want_no_padding(void)
{
    size_t at = 0;
    FIELD(yagomila_line, cost);
    FIELD(yagomila_line, period);
    FIELD(yagomila_line, weight);
    FIELD(yagomila_line, shares);
    END(yagomila_line);
    FIELD(yagomila_plan, cores);
    FIELD(yagomila_plan, common_period);
    FIELD(yagomila_plan, task_count);
    FIELD(yagomila_plan, lines);
    END(yagomila_plan);
    FIELD(yagomila_task, last_release);
    FIELD(yagomila_task, deadlines);
    FIELD(yagomila_task, turn_counts);
    FIELD(yagomila_task, place);
    FIELD(yagomila_task, cores);
    FIELD(yagomila_task, unfinished);
    FIELD(yagomila_task, had_release);
    END(yagomila_task);
    FIELD(yagomila_record, plan);
    FIELD(yagomila_record, clock);
    FIELD(yagomila_record, tasks);
    END(yagomila_record);
    FIELD(yagomila_choice, kind);
    FIELD(yagomila_choice, task);
    FIELD(yagomila_choice, deadline);
    END(yagomila_choice);
}

static void put_table(void)
{
    size_t i;
    for (i = 0; i < TASKS; i++) {
        table[YAGOMILA_TASK_BYTES * i] = (uint8_t)lines[i][0];
        table[YAGOMILA_TASK_BYTES * i + 4] = (uint8_t)lines[i][1];
    }
}

static void start(void) { want(yagomila_start(held, CORES, table, TABLE_LEN) == 0, "the document's list is refused"); }

/* Whatever a record held, a start leaves the same bytes in it, and the bytes before it as they were. */
static void want_every_byte_written(struct lent room)
{
    static const int fills[] = {0x00, 0xFF, CANARY};
    static uint8_t first[YAGOMILA_RECORD_BYTES];
    uint8_t *from = room.end - room.size;
    size_t i, k;
    for (k = 0; k < sizeof fills / sizeof fills[0]; k++) {
        memset(from, fills[k], room.size);
        start();
        for (i = 0; from + i < (uint8_t *)held; i++)
            want(from[i] == fills[k], "a byte before the record changed");
        if (k == 0)
            memcpy(first, held, sizeof first);
        want(memcmp(first, held, sizeof first) == 0, "a byte of the record is not written");
    }
}

/* The record of the document's plan, by the header's names: clock 0 and no runs. */
static void want_fresh(void)
{
    size_t i, core;
    memset(&wanted, 0, sizeof wanted);
    wanted.plan.cores = CORES;
    wanted.plan.common_period = 6;
    wanted.plan.task_count = TASKS;
    for (i = 0; i < TASKS; i++) {
        wanted.plan.lines[i].cost = lines[i][0];
        wanted.plan.lines[i].period = lines[i][1];
        wanted.plan.lines[i].weight = lines[i][2];
        for (core = 0; core < CORES; core++)
            wanted.plan.lines[i].shares[core] = lines[i][3 + core];
    }
    start();
    want_same("a start");
}

/* A release that goes to this core, with this deadline; so many runs of the task are then unfinished. */
static void release(size_t task, uint64_t time, uint8_t core, uint64_t deadline, uint16_t unfinished)
{
    yagomila_task *at = &wanted.tasks[task - 1];
    size_t on = 0;
    uint64_t due = 0;
    want(yagomila_release(held, task, time, &on, &due) == 0, "a release is refused");
    want(on == core && due == deadline, "a release answers something else");
    at->last_release = time;
    at->had_release = 1;
    at->unfinished = unfinished;
    at->deadlines[unfinished - 1] = deadline;
    at->cores[unfinished - 1] = core;
    wanted.clock = time;
}

static void finish(size_t task, uint64_t time, int64_t late)
{
    int64_t by = 0;
    want(yagomila_finish(held, task, time, &by) == 0 && by == late, "a finish answers something else");
    wanted.clock = time;
}

static void look(size_t core, uint64_t time, uint64_t kind, uint64_t task, uint64_t deadline)
{
    yagomila_choice choice = {9, 9, 9};
    want(yagomila_look(held, core, time, &choice) == 0, "a look is refused");
    want(choice.kind == kind && choice.task == task && choice.deadline == deadline, "a look answers something else");
    wanted.clock = time;
    want_same("a look");
}

/* Task 5 has turns 2, 1, 2, 3 (the document's E7): what it is at after three runs, a finish, and the cycle's last run. */
static void want_turns(void)
{
    yagomila_task *five = &wanted.tasks[4];
    release(5, 1, 2, 4, 1);
    five->turn_counts[1] = 1, five->place = 1;
    want_same("the first release");
    release(5, 4, 1, 7, 2);
    five->turn_counts[0] = 1, five->place = 2;
    want_same("the second release");
    release(5, 9, 2, 12, 3);
    five->turn_counts[1] = 2, five->place = 3;
    want_same("the third release");
    finish(5, 10, 6);
    five->unfinished = 2;
    five->deadlines[0] = 7, five->deadlines[1] = 12, five->deadlines[2] = 0;
    five->cores[0] = 1, five->cores[1] = 2, five->cores[2] = 0;
    want_same("a finish");
    release(5, 12, 3, 15, 3);
    five->turn_counts[0] = 0, five->turn_counts[1] = 0, five->place = 0;
    want_same("the cycle's last release");
}

/* A fixed task's counts are kept alike; its run's places are 0 again once it is finished. */
static void want_fixed(void)
{
    yagomila_task *one = &wanted.tasks[0], *two = &wanted.tasks[1];
    release(1, 12, 1, 18, 1);
    one->turn_counts[0] = 1, one->place = 1;
    want_same("a fixed task's release");
    look(1, 12, YAGOMILA_LOWER, 5, 7);
    finish(1, 13, -5);
    one->unfinished = 0, one->deadlines[0] = 0, one->cores[0] = 0;
    want_same("a fixed task's finish");
    release(2, 13, 2, 19, 1);
    two->turn_counts[1] = 1, two->place = 1;
    look(2, 14, YAGOMILA_FIXED, 2, 19);
}

/* Task 6 has turns 4, 3, 4 (E8), and core 3 is its first: upper on core 4. Then the clock's last tick. */
static void want_upper(void)
{
    yagomila_task *six = &wanted.tasks[5];
    release(6, 14, 4, 16, 1);
    six->turn_counts[3] = 1, six->place = 1;
    look(4, 15, YAGOMILA_UPPER, 6, 16);
    look(3, 15, YAGOMILA_IDLE, 0, 0);
    release(6, CLOCK_MOST, 3, CLOCK_MOST + 2, 2);
    six->turn_counts[2] = 1, six->place = 2;
    want_same("a release at the clock's last tick");
}

int main(void)
{
    struct lent room = guarded(YAGOMILA_RECORD_BYTES + 256);
    held = (yagomila_record *)(room.end - YAGOMILA_RECORD_BYTES);
    put_table();
    want_no_padding();
    want_every_byte_written(room);
    want_fresh();
    want_turns();
    want_fixed();
    want_upper();
    printf("layout: the header's record is the archive's, each of its %d bytes\n", YAGOMILA_RECORD_BYTES);
    return 0;
}
