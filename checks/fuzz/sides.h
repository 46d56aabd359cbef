/* The two sides that answer a call: the product in the rooms that are lent, and the oracle in their copies. */
#ifndef SIDES_H
#define SIDES_H

#include <stddef.h>
#include <stdint.h>

struct side;

/* The oracle is null where this is compiled with ALONE. */
extern const struct side *const product, *const oracle;

/* The numbers of the call at hand: a task or a core, a time, how many cores, the table's length, the buffer's. */
extern struct asked {
    size_t number;
    uint64_t time;
    uint32_t cores;
    size_t table_len;
    size_t buf_len;
} asked;

/* The calls, of a side: what is answered, a refusal below 0. */
int64_t admit(const struct side *of);
int64_t listing(const struct side *of);
int64_t start(const struct side *of);
int64_t release(const struct side *of);
int64_t finish(const struct side *of);
int64_t look(const struct side *of);
int64_t list(const struct side *of);

#endif
