/* What frame.h declares. */
#define _GNU_SOURCE
#include <stdio.h>
#include <stdlib.h>
#include <sys/mman.h>
#include <unistd.h>

#include "frame.h"

void stop(const char *why)
{
    fprintf(stderr, "%s\n", why);
    exit(2);
}

uint8_t *guarded(size_t bytes)
{
    size_t page = (size_t)sysconf(_SC_PAGESIZE);
    size_t size = (bytes + page - 1) / page * page;
    uint8_t *start = mmap(NULL, size + page, PROT_READ | PROT_WRITE, MAP_PRIVATE | MAP_ANONYMOUS, -1, 0);
    if (start == MAP_FAILED || mprotect(start + size, page, PROT_NONE))
        stop("no guarded page");
    return start + size;
}

void fill(uint8_t *from, size_t length, uint32_t pattern)
{
    size_t i;
    for (i = 0; i < length; i++)
        from[i] = (uint8_t)(pattern + i);
}

int input_ends(void)
{
    int next = getchar();
    return next == EOF || ungetc(next, stdin) == EOF;
}

void take_bytes(uint8_t *to, size_t length)
{
    if (fread(to, 1, length, stdin) != length)
        stop("the input ends inside a frame");
}

uint64_t take_number(int bytes)
{
    uint8_t taken[8];
    uint64_t number = 0;
    take_bytes(taken, (size_t)bytes);
    for (; bytes > 0; bytes--)
        number = number << 8 | taken[bytes - 1];
    return number;
}

void put_bytes(const uint8_t *from, size_t length)
{
    if (fwrite(from, 1, length, stdout) != length)
        stop("the output cannot be written");
}

void put_number(uint64_t value, int bytes)
{
    for (; bytes > 0; bytes--, value >>= 8)
        putchar((int)(value & 255));
}
