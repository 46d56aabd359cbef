/*
 * The host's two calls that ask of a table, asked by frames: reads frames on standard input until it ends and answers
 * each on standard output, all numbers least byte first.
 *
 * A frame: cores, length of the table, length of the buffer, first byte of the pattern, and whether a pointer is null
 * where its length is 0 (five numbers of 32 bits), then the table's bytes.
 * An answer: the admission number (32 bits), the listing's answer (64 bits), the table with BEFORE bytes in front of it
 * and the buffer with BEFORE bytes in front of it, as they stand after both calls.
 *
 * Table and buffer each end where a page begins that must not be touched; all that is lent is filled with a pattern.
 */
#include <stdio.h>

#include "frame.h"
#include "yagomila.h"

#define TABLE_MOST 4096
#define BUFFER_MOST 20000

struct frame {
    uint32_t cores, table_len, buf_len, pattern, null;
};

/* Where a page begins that must not be touched, after room for table or buffer. */
static uint8_t *table_end, *buf_end;

static void read_head(struct frame *frame)
{
    frame->cores = (uint32_t)take_number(4);
    frame->table_len = (uint32_t)take_number(4);
    frame->buf_len = (uint32_t)take_number(4);
    frame->pattern = (uint32_t)take_number(4);
    frame->null = (uint32_t)take_number(4);
    if (frame->table_len > TABLE_MOST || frame->buf_len > BUFFER_MOST)
        stop("a length above what is lent");
}

/* Makes both calls on a frame's table, which follows on the input. */
static void answer(const struct frame *frame)
{
    uint8_t *table = table_end - frame->table_len;
    uint8_t *buf = buf_end - frame->buf_len;
    const uint8_t *lent_table = frame->null && frame->table_len == 0 ? NULL : table;
    uint8_t *lent_buf = frame->null && frame->buf_len == 0 ? NULL : buf;
    uint32_t admitted;
    int64_t listed;
    fill(table - BEFORE, BEFORE, frame->pattern);
    take_bytes(table, frame->table_len);
    fill(buf - BEFORE, BEFORE + frame->buf_len, frame->pattern);
    admitted = yagomila_admit(frame->cores, lent_table, frame->table_len);
    listed = yagomila_listing(frame->cores, lent_table, frame->table_len, lent_buf, frame->buf_len);
    put_number(admitted, 4);
    put_number((uint64_t)listed, 8);
    put_bytes(table - BEFORE, BEFORE + frame->table_len);
    put_bytes(buf - BEFORE, BEFORE + frame->buf_len);
}

int main(void)
{
    struct frame frame;
    table_end = guarded(BEFORE + TABLE_MOST);
    buf_end = guarded(BEFORE + BUFFER_MOST);
    while (!input_ends()) {
        read_head(&frame);
        answer(&frame);
    }
    return fflush(stdout) == 0 ? 0 : 2;
}
