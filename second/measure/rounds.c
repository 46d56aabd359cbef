/*
 * Rounds of one kind through the host's calls, for the benchmark: reads a line `KIND LAPS ROUNDS`, a table's text, a
 * line `calls` and a call to each line, makes so many laps of so many rounds, and writes the nanoseconds of the
 * quickest lap and the sum of all answers.
 *
 * Kinds: e is an empty round, p plans, a admits, l lists the record, s tests it alone (a look at core 0, which is
 * refused straight after the test), c makes the calls on a fresh record. In all others the record has had the calls.
 */
#define _POSIX_C_SOURCE 199309L
#include <inttypes.h>
#include <stdio.h>
#include <stdlib.h>
#include <string.h>
#include <time.h>

#include "yagomila.h"

#define CALLS_MAX 4096

struct call {
    char kind;
    size_t number;
    uint64_t time;
};

typedef uint64_t one_round(void);

struct kind {
    char name;
    one_round *round;
};

static uint8_t table[YAGOMILA_TASKS_MAX * YAGOMILA_TASK_BYTES];
static size_t table_len;
static uint32_t cores;
static struct call calls[CALLS_MAX];
static size_t calls_len;
static yagomila_record first, held;
static uint8_t buf[YAGOMILA_LISTING_MAX];

static void want(int holds, const char *what)
{
    if (holds)
        return;
    fprintf(stderr, "rounds: %s\n", what);
    exit(2);
}

static void put_number(uint8_t *at, uint32_t number)
{
    int k;
    for (k = 0; k < 4; k++)
        at[k] = (uint8_t)(number >> (8 * k));
}

/* The table's text, to the line `calls`. */
static void read_table(void)
{
    uint32_t cost, period;
    want(scanf("%" SCNu32, &cores) == 1, "no core count");
    while (scanf("%" SCNu32 " %" SCNu32, &cost, &period) == 2) {
        want(table_len < sizeof table, "too many tasks");
        put_number(table + table_len, cost);
        put_number(table + table_len + 4, period);
        table_len += YAGOMILA_TASK_BYTES;
    }
}

static void read_calls(void)
{
    char word[8];
    struct call call;
    want(scanf("%7s", word) == 1 && strcmp(word, "calls") == 0, "no line calls");
    while (scanf("%7s %zu %" SCNu64, word, &call.number, &call.time) == 3) {
        want(calls_len < CALLS_MAX, "too many calls");
        call.kind = word[0];
        calls[calls_len++] = call;
    }
    want(feof(stdin), "a line that is no call");
}

/* One call; every call of the benchmark is accepted. */
static uint64_t make(const struct call *call)
{
    size_t core = 0;
    uint64_t deadline = 0;
    int64_t late = 0;
    yagomila_choice choice = {0, 0, 0};
    switch (call->kind) {
    case 'r':
        want(yagomila_release(&held, call->number, call->time, &core, &deadline) == 0, "a refused release");
        return core + deadline;
    case 'f':
        want(yagomila_finish(&held, call->number, call->time, &late) == 0, "a refused finish");
        return (uint64_t)late;
    default:
        want(yagomila_look(&held, call->number, call->time, &choice) == 0, "a refused look");
        return choice.task + choice.deadline;
    }
}

static uint64_t make_all(void)
{
    uint64_t sum = 0;
    size_t i;
    for (i = 0; i < calls_len; i++)
        sum += make(&calls[i]);
    return sum;
}

static uint64_t empty_round(void)
{
    return 0;
}

static uint64_t plan_round(void)
{
    want(yagomila_start(&held, cores, table, table_len) == 0, "a refused table");
    return held.plan.common_period;
}

static uint64_t admit_round(void)
{
    return yagomila_admit(cores, table, table_len);
}

static uint64_t list_round(void)
{
    int64_t len = 0;
    want(yagomila_list(&held, buf, sizeof buf, &len) == 0, "a refused listing");
    return (uint64_t)len;
}

static uint64_t sound_round(void)
{
    yagomila_choice choice = {0, 0, 0};
    return yagomila_look(&held, 0, held.clock, &choice);
}

static uint64_t calls_round(void)
{
    held = first;
    return make_all();
}

static const struct kind kinds[] = {
    {'e', empty_round}, {'p', plan_round},  {'a', admit_round},
    {'l', list_round},  {'s', sound_round}, {'c', calls_round},
};

static one_round *round_of(char name)
{
    size_t i;
    for (i = 0; i < sizeof kinds / sizeof *kinds; i++)
        if (kinds[i].name == name)
            return kinds[i].round;
    want(0, "no such kind");
    return NULL;
}

/* By the same clock as the second program's rounds. */
static int64_t nanoseconds(void)
{
    struct timespec now;
    clock_gettime(CLOCK_MONOTONIC, &now);
    return (int64_t)now.tv_sec * 1000000000 + now.tv_nsec;
}

/* The nanoseconds of so many rounds; their answers go into the sum. */
static int64_t lap(one_round *round, uint64_t rounds, uint64_t *sum)
{
    int64_t before = nanoseconds();
    for (; rounds > 0; rounds--)
        *sum += round();
    return nanoseconds() - before;
}

int main(void)
{
    char name;
    uint64_t laps, rounds, sum = 0;
    int64_t took, least = INT64_MAX;
    want(scanf("%c %" SCNu64 " %" SCNu64, &name, &laps, &rounds) == 3, "no kind, laps and rounds");
    read_table();
    read_calls();
    want(yagomila_start(&first, cores, table, table_len) == 0, "a refused table");
    held = first;
    make_all();
    for (; laps > 0; laps--) {
        took = lap(round_of(name), rounds, &sum);
        least = took < least ? took : least;
    }
    printf("%" PRId64 " %" PRIu64 "\n", least, sum);
    return 0;
}
