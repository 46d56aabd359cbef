/* For the tests of the host's calls: bytes to lend that end where a page begins that must not be touched. */
#ifndef LENT_H
#define LENT_H

#include <stdint.h>
#include <stdio.h>
#include <stdlib.h>
#include <string.h>
#include <sys/mman.h>
#include <unistd.h>

#define CANARY 0xA5

struct lent {
    uint8_t *end;
    size_t size;
};

/* Room for so many bytes between two pages that must not be touched, filled with canaries. */
static struct lent guarded(size_t bytes)
{
    struct lent room;
    size_t page = (size_t)sysconf(_SC_PAGESIZE);
    uint8_t *start;
    room.size = (bytes + page - 1) / page * page;
    start = mmap(NULL, room.size + 2 * page, PROT_READ | PROT_WRITE, MAP_PRIVATE | MAP_ANONYMOUS, -1, 0);
    if (start == MAP_FAILED || mprotect(start, page, PROT_NONE) || mprotect(start + page + room.size, page, PROT_NONE)) {
        perror("guarded");
        exit(2);
    }
    room.end = start + page + room.size;
    memset(room.end - room.size, CANARY, room.size);
    return room;
}

#endif
