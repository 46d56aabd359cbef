/* The rooms that are lent: see lent.h. */
#define _DEFAULT_SOURCE
#include "lent.h"

#include <stdio.h>
#include <stdlib.h>
#include <string.h>
#include <sys/mman.h>
#include <unistd.h>

#include "yagomila.h"

#define BEFORE 64

/* A room's end, where a page begins that must not be touched; how many bytes before it are lent; a copy of them and of those before. */
static struct {
    uint8_t *end;
    size_t used;
    uint8_t *copy;
} rooms[ROOMS];

/* The first of the bytes before what a room lends. */
static uint8_t *start_of(int room)
{
    return rooms[room].end - rooms[room].used - BEFORE;
}

static void make(enum room room, size_t most)
{
    size_t page = (size_t)sysconf(_SC_PAGESIZE);
    size_t size = (most + BEFORE + page - 1) / page * page;
    uint8_t *start = mmap(NULL, size + 2 * page, PROT_READ | PROT_WRITE, MAP_PRIVATE | MAP_ANONYMOUS, -1, 0);
    rooms[room].copy = malloc(most + BEFORE);
    if (start == MAP_FAILED || rooms[room].copy == NULL || mprotect(start, page, PROT_NONE) || mprotect(start + page + size, page, PROT_NONE)) {
        perror("fuzz");
        exit(2);
    }
    rooms[room].end = start + page + size;
}

void make_rooms(void)
{
    make(RECORD, sizeof(yagomila_record));
    make(TABLE, TABLE_MOST);
    make(BUFFER, BUFFER_MOST);
    make(ANSWER, sizeof(yagomila_choice));
    make(SECOND, sizeof(uint64_t));
}

void *lend(enum room room, size_t bytes)
{
    rooms[room].used = bytes;
    memset(start_of(room), FILLED, bytes + BEFORE);
    return lent(room);
}

void *lent(enum room room)
{
    return rooms[room].used == 0 ? NULL : rooms[room].end - rooms[room].used;
}

void copy_all(void)
{
    int room;
    for (room = 0; room < ROOMS; room++)
        memcpy(rooms[room].copy, start_of(room), rooms[room].used + BEFORE);
}

void *copied(enum room room)
{
    return rooms[room].used == 0 ? NULL : rooms[room].copy + BEFORE;
}

int same_all(void)
{
    int room;
    for (room = 0; room < ROOMS; room++)
        if (memcmp(start_of(room), rooms[room].copy, rooms[room].used + BEFORE) != 0)
            return 0;
    return 1;
}

uint64_t checksum(void)
{
    uint64_t sum = 14695981039346656037u;
    int room;
    for (room = 0; room < ROOMS; room++) {
        const uint8_t *at;
        for (at = start_of(room); at < rooms[room].end; at++)
            sum = (sum ^ *at) * 1099511628211u;
    }
    return sum;
}
