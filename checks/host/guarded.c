/*
 * Every call, with each thing that is lent to it right before a page that must not be touched, and on a stack of
 * YAGOMILA_STACK_MAX bytes above such a page. No byte outside may be read or written, none may change but where the
 * header says so, and on a refusal none at all. The stack that each call takes is measured.
 */
#define _GNU_SOURCE
#include <ucontext.h>

#include "lent.h"
#include "yagomila.h"

#define TABLE_MOST 530
#define CLOCK_MOST 1000000000000
/* Bytes before each thing that are watched too. */
#define BEFORE 256
#define BIT(thing) (1u << (thing))

enum { RECORD, TABLE, BUF, CORE, DEADLINE, LATE, CHOICE, LEN, THINGS };
static const size_t sizes[THINGS] = {
    sizeof(yagomila_record), TABLE_MOST, YAGOMILA_LISTING_MAX + 3, sizeof(size_t), 8, 8, sizeof(yagomila_choice), 8,
};
static struct lent things[THINGS];
static uint8_t copies[THINGS][BEFORE + YAGOMILA_LISTING_MAX + 3];

/* What is lent to each call, and what it writes where it refuses nothing. */
enum { ADMIT, LISTING, START, RELEASE, FINISH, LOOK, LIST, CALLS };
static const struct {
    const char *name;
    unsigned lends, writes;
} calls[CALLS] = {
    {"admit", BIT(TABLE), 0},
    {"listing", BIT(TABLE) | BIT(BUF), BIT(BUF)},
    {"start", BIT(RECORD) | BIT(TABLE), BIT(RECORD)},
    {"release", BIT(RECORD) | BIT(CORE) | BIT(DEADLINE), BIT(RECORD) | BIT(CORE) | BIT(DEADLINE)},
    {"finish", BIT(RECORD) | BIT(LATE), BIT(RECORD) | BIT(LATE)},
    {"look", BIT(RECORD) | BIT(CHOICE), BIT(RECORD) | BIT(CHOICE)},
    {"list", BIT(RECORD) | BIT(BUF) | BIT(LEN), BIT(BUF) | BIT(LEN)},
};
static struct lent stacks[CALLS];
static unsigned long made;
static ucontext_t back, trial;

/* The things by their types, what the next call is asked, and what the last one answered. */
static yagomila_record *held;
static size_t *core;
static uint64_t *deadline;
static int64_t *late, *len;
static yagomila_choice *choice;
static uint8_t *table, *buf;
static size_t table_len, buf_len, number;
static uint32_t cores;
static uint64_t at;
static int64_t answer;

static void want(int holds, const char *what)
{
    if (holds)
        return;
    fprintf(stderr, "guarded: %s, at a table of %lu bytes on %lu cores\n", what, (unsigned long)table_len, (unsigned long)cores);
    exit(1);
}

static void make_admit(void) { answer = yagomila_admit(cores, table, table_len); }
static void make_listing(void) { answer = yagomila_listing(cores, table, table_len, buf, buf_len); }
static void make_start(void) { answer = yagomila_start(held, cores, table, table_len); }
static void make_release(void) { answer = yagomila_release(held, number, at, core, deadline); }
static void make_finish(void) { answer = yagomila_finish(held, number, at, late); }
static void make_look(void) { answer = yagomila_look(held, number, at, choice); }
static void make_list(void) { answer = yagomila_list(held, buf, buf_len, len); }

/* Runs a call alone on its own stack. */
static void run(int call)
{
    static void (*const makes[CALLS])(void) = {make_admit, make_listing, make_start, make_release, make_finish, make_look, make_list};
    getcontext(&trial);
    trial.uc_stack.ss_sp = stacks[call].end - stacks[call].size;
    trial.uc_stack.ss_size = stacks[call].size;
    trial.uc_link = &back;
    makecontext(&trial, makes[call], 0);
    swapcontext(&back, &trial);
    made++;
}

/* Where the watched bytes of a thing begin, which its copy has too. */
static uint8_t *watched(int thing) { return things[thing].end - sizes[thing] - BEFORE; }

/* Whether the watched bytes are as they were, but for so many of the thing's own from a place on. */
static int kept(int thing, const uint8_t *from, size_t n)
{
    size_t first = (size_t)(from - watched(thing)), rest = BEFORE + sizes[thing] - first - n;
    return memcmp(copies[thing], watched(thing), first) == 0 && memcmp(copies[thing] + first + n, from + n, rest) == 0;
}

/* Makes a call and answers as it does; of what is lent, only what it is to write may have changed. */
static int64_t make(int call)
{
    int thing, refused;
    for (thing = 0; thing < THINGS; thing++)
        if (calls[call].lends & BIT(thing))
            memcpy(copies[thing], watched(thing), BEFORE + sizes[thing]);
    run(call);
    refused = call == LISTING ? answer < 0 : answer != 0;
    for (thing = 0; thing < THINGS; thing++) {
        const uint8_t *from = thing == BUF ? buf : things[thing].end - sizes[thing];
        size_t n = thing == BUF ? (size_t)(call == LIST ? *len : answer) : sizes[thing];
        if (!(calls[call].lends & BIT(thing)))
            continue;
        if (refused || !(calls[call].writes & BIT(thing)))
            n = 0;
        want(thing != BUF || n <= buf_len, "a length above the buffer's");
        want(kept(thing, from, n), "a byte changed that may not");
    }
    return answer;
}

/* A table of equal tasks that ends where the guarded page begins; its last task may be cut. */
static void put_table(size_t bytes, uint8_t cost, uint8_t period)
{
    size_t i;
    table = things[TABLE].end - bytes;
    table_len = bytes;
    memset(watched(TABLE), CANARY, BEFORE + TABLE_MOST);
    for (i = 0; i < bytes; i++)
        table[i] = i % 8 == 0 ? cost : i % 8 == 4 ? period : 0;
}

/* The listing of a table or of the record, asked for with so much room. */
static int64_t ask(int call, size_t room)
{
    buf = things[BUF].end - room;
    buf_len = room;
    memset(watched(BUF), CANARY, BEFORE + sizes[BUF]);
    return make(call);
}

/* A table that is taken: buffers from three bytes too short to three too long, for its listing and its record's. */
static void ask_taken(void)
{
    static uint8_t listing[YAGOMILA_LISTING_MAX];
    size_t length = (size_t)ask(LISTING, YAGOMILA_LISTING_MAX), room;
    memcpy(listing, buf, length);
    want(memcmp(listing, "cores ", 6) == 0 && listing[length - 1] == '\n', "that is no listing");
    want(ask(LISTING, 0) == -YAGOMILA_REFUSED_BUFFER && ask(LIST, 0) == YAGOMILA_REFUSED_BUFFER, "no room is enough");
    want(ask(LISTING, 1) == -YAGOMILA_REFUSED_BUFFER && ask(LIST, 1) == YAGOMILA_REFUSED_BUFFER, "one byte is enough");
    for (room = length - 3; room <= length + 3; room++) {
        int fits = room >= length;
        want(ask(LISTING, room) == (fits ? (int64_t)length : -YAGOMILA_REFUSED_BUFFER), "another answer in another buffer");
        want(!fits || memcmp(buf, listing, length) == 0, "another listing in another buffer");
        want(ask(LIST, room) == (fits ? 0 : YAGOMILA_REFUSED_BUFFER), "the record's listing is answered otherwise");
        want(!fits || (*len == (int64_t)length && memcmp(buf, listing, length) == 0), "the record's listing is another");
    }
}

/* The refusal of a table of equal tasks, or 0. */
static uint32_t refusal_of(uint8_t cost, uint8_t period)
{
    size_t tasks = table_len / YAGOMILA_TASK_BYTES;
    if (cores == 0 || cores > YAGOMILA_CORES_MAX)
        return YAGOMILA_REFUSED_CORES;
    if (table_len == 0 || table_len % YAGOMILA_TASK_BYTES != 0 || tasks > YAGOMILA_TASKS_MAX)
        return YAGOMILA_REFUSED_TABLE;
    if (cost == 0)
        return YAGOMILA_REFUSED_TASK;
    return tasks * cost > cores * (size_t)period ? YAGOMILA_REFUSED_WEIGHTS : 0;
}

/* One table on one number of cores: admission, a start, and the listing in every buffer that is tried. */
static void ask_table(uint8_t cost, uint8_t period)
{
    uint32_t expected = refusal_of(cost, period);
    want(make(ADMIT) == expected, "another admission number");
    memset(held, CANARY, sizeof *held);
    want(make(START) == expected, "another refusal of a start");
    if (expected == 0) {
        ask_taken();
        return;
    }
    want(ask(LISTING, 0) == -(int64_t)expected, "another refusal with no room");
    want(ask(LISTING, 1) == -(int64_t)expected, "another refusal with one byte");
    want(ask(LISTING, YAGOMILA_LISTING_MAX) == -(int64_t)expected, "another refusal with room");
}

/* Every length of table; one that ends inside a task is refused whatever its tasks are, so with one kind of them. */
static void ask_tables(void)
{
    static const uint32_t counts[] = {0, 1, 4, 16, 17};
    static const uint8_t tasks[][2] = {{1, 64}, {2, 3}, {0, 5}};
    size_t bytes, c, t;
    for (bytes = 0; bytes <= TABLE_MOST; bytes++)
        for (c = 0; c < sizeof counts / sizeof counts[0]; c++)
            for (t = 0; t < (bytes % YAGOMILA_TASK_BYTES == 0 ? sizeof tasks / sizeof tasks[0] : 1); t++) {
                cores = counts[c];
                put_table(bytes, tasks[t][0], tasks[t][1]);
                ask_table(tasks[t][0], tasks[t][1]);
            }
}

/* A call on the record, with its task or core and its time, answers this. */
static void call(int which, size_t of, uint64_t time, uint32_t expected, const char *what)
{
    number = of;
    at = time;
    want(make(which) == expected, what);
}

/* What is refused of a number or a time, whatever the record is at; `clock` is above 0. */
static void ask_refused(size_t tasks, uint64_t clock)
{
    static const int three[] = {RELEASE, FINISH, LOOK};
    size_t i;
    for (i = 0; i < sizeof three / sizeof three[0]; i++) {
        uint32_t no_number = three[i] == LOOK ? YAGOMILA_REFUSED_NO_CORE : YAGOMILA_REFUSED_NO_TASK;
        size_t most = three[i] == LOOK ? cores : tasks;
        call(three[i], 0, clock, no_number, "number 0 is not refused");
        call(three[i], most + 1, clock, no_number, "a number above the most is not refused");
        call(three[i], SIZE_MAX, 0, no_number, "the greatest number is not refused");
        call(three[i], 1, CLOCK_MOST + 1, YAGOMILA_REFUSED_CLOCK, "a time above the limit is not refused");
        call(three[i], most, UINT64_MAX, YAGOMILA_REFUSED_CLOCK, "the greatest time is not refused");
        call(three[i], 1, clock - 1, YAGOMILA_REFUSED_PAST, "a time before the clock is not refused");
    }
}

static void ask_cores(uint64_t clock)
{
    size_t k;
    for (k = 1; k <= cores; k++) {
        call(LOOK, k, clock, 0, "a look is refused");
        want(choice->kind <= YAGOMILA_UPPER && (choice->kind == YAGOMILA_IDLE) == (choice->task == 0), "that is no choice");
    }
}

/* Runs of all tasks until their places are full, with looks between, and then finishes until there is none: the clock after. */
static uint64_t ask_runs(size_t tasks, uint64_t period)
{
    uint64_t clock = 0, run;
    size_t task;
    for (run = 0; run <= YAGOMILA_RUNS_MAX; run++) {
        clock = 1 + run * period;
        for (task = 1; task <= tasks; task++) {
            call(RELEASE, task, clock, run < YAGOMILA_RUNS_MAX ? 0 : YAGOMILA_REFUSED_BACKLOG, "a release is answered otherwise");
            want(run == YAGOMILA_RUNS_MAX || (*deadline == clock + period && *core >= 1 && *core <= cores), "another core or deadline");
        }
        ask_cores(clock);
        ask_refused(tasks, clock);
    }
    for (run = 0; run < YAGOMILA_RUNS_MAX; run++)
        for (task = tasks; task >= 1; task--) {
            call(FINISH, task, ++clock, 0, "a finish is refused");
            want(*late == (int64_t)clock - (int64_t)(1 + (run + 1) * period), "another lateness");
        }
    call(FINISH, tasks, clock, YAGOMILA_REFUSED_NO_RUN, "a finish without a run");
    return clock;
}

/* Eight runs of a task at one time, and one too many: the first is released then, each other a period after the one before. */
static void ask_row(size_t task, uint64_t time, uint64_t period)
{
    uint64_t run;
    for (run = 0; run < YAGOMILA_RUNS_MAX; run++) {
        call(RELEASE, task, time, 0, "an early release is refused");
        want(*deadline == time + (run + 1) * period, "another deadline of an early run");
    }
    call(RELEASE, task, time, YAGOMILA_REFUSED_BACKLOG, "a ninth run, early");
}

/* Before its release a run is no core's choice and cannot end; then it can. All tasks have eight runs in a row from `first` on. */
static void ask_held(size_t tasks, uint64_t first, uint64_t period)
{
    uint64_t run;
    size_t task, k;
    for (run = 0; run < YAGOMILA_RUNS_MAX; run++) {
        uint64_t released = first + run * period;
        for (k = 1; run > 0 && k <= cores; k++) {
            call(LOOK, k, released - 1, 0, "a look is refused");
            want(choice->kind == YAGOMILA_IDLE, "a held run is chosen");
        }
        for (task = 1; run > 0 && task <= tasks; task++)
            call(FINISH, task, released - 1, YAGOMILA_REFUSED_NO_RUN, "a finish of a held run");
        ask_cores(released);
        call(LOOK, held->tasks[0].cores[0], released, 0, "a look is refused");
        want(choice->kind != YAGOMILA_IDLE, "a released run is not chosen");
        for (task = 1; task <= tasks; task++) {
            call(FINISH, task, released, 0, "a finish at the release is refused");
            want(*late == -(int64_t)period, "another lateness of an early run");
        }
    }
}

/* A run of the first task that no call leaves so: its deadline is below the period, or its last release ahead of the clock. */
static void ask_by_hand(uint64_t clock, uint64_t period)
{
    yagomila_task *first = &held->tasks[0];
    call(RELEASE, 1, clock, 0, "a release is refused");
    first->deadlines[0] = period - 1;
    call(LOOK, first->cores[0], clock, 0, "a look is refused");
    want(choice->task == 1 && choice->deadline == period - 1, "a deadline below the period is not chosen");
    call(FINISH, 1, clock, 0, "a finish of a deadline below the period");
    first->last_release = clock + 7;
    call(RELEASE, 1, clock, 0, "a release after a last one ahead of the clock");
    want(*deadline == clock + 7 + 2 * period, "another deadline after a last release ahead of the clock");
    call(FINISH, 1, clock + 6 + period, YAGOMILA_REFUSED_NO_RUN, "a finish of a run that is held so");
    call(FINISH, 1, clock + 7 + period, 0, "a finish at its release");
}

/* At the clock's limit: a run may be held until then, and no longer, before its place is asked for. */
static void ask_limit(uint64_t period)
{
    call(RELEASE, 1, CLOCK_MOST - period, 0, "a release a period before the clock's limit");
    call(RELEASE, 1, CLOCK_MOST - period, 0, "a release that is held until the clock's limit");
    want(*deadline == CLOCK_MOST + period, "another deadline at the clock's limit");
    call(RELEASE, 1, CLOCK_MOST - period, YAGOMILA_REFUSED_CLOCK, "a release that is held past the clock's limit");
    call(FINISH, 1, CLOCK_MOST, 0, "a finish at the clock's limit");
    call(FINISH, 1, CLOCK_MOST, 0, "a finish of a run that is released there");
    call(RELEASE, 1, CLOCK_MOST, YAGOMILA_REFUSED_CLOCK, "an early release at the clock's limit");
    held->tasks[0].last_release = CLOCK_MOST - period;
    call(RELEASE, 1, CLOCK_MOST, 0, "a release at the clock's limit");
}

/* What comes early is held. */
static void ask_early(size_t tasks, uint64_t clock, uint64_t period)
{
    size_t task;
    clock += period;
    for (task = 1; task <= tasks; task++)
        ask_row(task, clock, period);
    ask_refused(tasks, clock);
    ask_held(tasks, clock, period);
    ask_by_hand(clock + YAGOMILA_RUNS_MAX * period, period);
    ask_limit(period);
}

static void ask_unsound(void)
{
    call(RELEASE, 1, CLOCK_MOST, YAGOMILA_REFUSED_UNSOUND, "a release on an unsound record");
    call(FINISH, 0, 0, YAGOMILA_REFUSED_UNSOUND, "a finish on an unsound record");
    call(LOOK, SIZE_MAX, UINT64_MAX, YAGOMILA_REFUSED_UNSOUND, "a look on an unsound record");
    want(ask(LIST, 0) == YAGOMILA_REFUSED_UNSOUND, "a listing of an unsound record");
}

/* Records of one byte alone are unsound; with a byte changed here and there, each answer holds to the header. */
static void ask_spoilt(void)
{
    static yagomila_record sound;
    static const int fills[] = {0x00, 0xFF, 0x01, CANARY};
    size_t i;
    sound = *held;
    for (i = 0; i < sizeof fills / sizeof fills[0]; i++) {
        memset(held, fills[i], sizeof *held);
        ask_unsound();
    }
    for (i = 0; i < sizeof sound; i += 29) {
        int which = RELEASE + (int)(i % 4);
        *held = sound;
        ((uint8_t *)held)[i] ^= (uint8_t)(i % 2 == 0 ? 0xFF : 1);
        number = 1 + i % 3;
        at = CLOCK_MOST;
        if (which == LIST)
            ask(LIST, YAGOMILA_LISTING_MAX);
        else
            make(which);
    }
    *held = sound;
}

/* Boxes of equal tasks: one task, E5 of document 01, all tasks fixed, and cores with two movers. */
static void ask_records(void)
{
    static const struct {
        uint32_t cores;
        uint8_t tasks, cost, period;
    } boxes[] = {{1, 1, 1, 1}, {2, 3, 2, 3}, {16, 64, 1, 4}, {16, 58, 3, 11}};
    size_t k;
    for (k = 0; k < sizeof boxes / sizeof boxes[0]; k++) {
        cores = boxes[k].cores;
        put_table((size_t)boxes[k].tasks * YAGOMILA_TASK_BYTES, boxes[k].cost, boxes[k].period);
        want(make(START) == 0, "a box is refused");
        ask_early(boxes[k].tasks, ask_runs(boxes[k].tasks, boxes[k].period), boxes[k].period);
        cores = 0;
        want(make(START) == YAGOMILA_REFUSED_CORES, "a start on 0 cores");
        ask_spoilt();
    }
}

static void lend_all(void)
{
    int k;
    for (k = 0; k < THINGS; k++)
        things[k] = guarded(BEFORE + sizes[k]);
    for (k = 0; k < CALLS; k++)
        stacks[k] = guarded(YAGOMILA_STACK_MAX);
    held = (yagomila_record *)(things[RECORD].end - sizes[RECORD]);
    core = (size_t *)(things[CORE].end - sizes[CORE]);
    deadline = (uint64_t *)(things[DEADLINE].end - sizes[DEADLINE]);
    late = (int64_t *)(things[LATE].end - sizes[LATE]);
    choice = (yagomila_choice *)(things[CHOICE].end - sizes[CHOICE]);
    len = (int64_t *)(things[LEN].end - sizes[LEN]);
}

/* The bytes of a call's stack that were ever written. */
static unsigned long stack_of(int call)
{
    const uint8_t *low = stacks[call].end - stacks[call].size;
    while (low < stacks[call].end && *low == CANARY)
        low++;
    return (unsigned long)(stacks[call].end - low);
}

int main(void)
{
    unsigned long most = 0;
    int k;
    lend_all();
    ask_tables();
    ask_records();
    printf("guarded: %lu calls, no byte outside touched; bytes of stack:", made);
    for (k = 0; k < CALLS; k++) {
        printf(" %s %lu", calls[k].name, stack_of(k));
        if (stack_of(k) > most)
            most = stack_of(k);
    }
    printf("\n");
    if (2 * most <= YAGOMILA_STACK_MAX)
        return 0;
    fprintf(stderr, "guarded: YAGOMILA_STACK_MAX is less than twice the stack that a call takes\n");
    return 1;
}
