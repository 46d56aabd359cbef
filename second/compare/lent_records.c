/*
 * The calls on a lent record, asked by frames: reads a record on standard input, then frames until it ends, and answers
 * each frame on standard output, all numbers least byte first.
 *
 * A frame: the call, whether the record after it is kept for the next frame (else that has this frame's record again),
 * where the record is spoilt and in how many bytes, length of the table or the buffer, first byte of the pattern, and
 * whether a pointer is null where its length is 0 (seven numbers of 32 bits); what the spoilt bytes are set to, the
 * call's number (a task's, a core's, or the core count) and its time (three of 64 bits); then the table's bytes.
 * An answer: the refusal (32 bits), then the record, the table or the buffer, and the numbers that calls answer in, a
 * first of 24 bytes and a second of 8, each with BEFORE bytes in front of it, as they stand after the call.
 *
 * All that is lent ends where a page begins that must not be touched, and is filled with a pattern where the frame does
 * not say what it holds.
 */
#include <stdio.h>
#include <string.h>

#include "frame.h"
#include "yagomila.h"

#define BYTES_MOST 20000
#define FIRST_BYTES sizeof(yagomila_choice)
#define SECOND_BYTES sizeof(uint64_t)

enum call { LIST, RELEASE, FINISH, LOOK, START };

struct frame {
    uint32_t call, kept, place, width, length, pattern, null;
    uint64_t value, number, time;
};

/* The record of the next frame. */
static uint8_t record[YAGOMILA_RECORD_BYTES];

/* Where a page begins that must not be touched: after the lent record, table or buffer, and each number. */
static uint8_t *record_end, *bytes_end, *first_end, *second_end;

static void read_head(struct frame *frame)
{
    frame->call = (uint32_t)take_number(4);
    frame->kept = (uint32_t)take_number(4);
    frame->place = (uint32_t)take_number(4);
    frame->width = (uint32_t)take_number(4);
    frame->length = (uint32_t)take_number(4);
    frame->pattern = (uint32_t)take_number(4);
    frame->null = (uint32_t)take_number(4);
    frame->value = take_number(8);
    frame->number = take_number(8);
    frame->time = take_number(8);
    if (frame->length > BYTES_MOST)
        stop("a length above what is lent");
    if (frame->width > 8 || frame->place > YAGOMILA_RECORD_BYTES - frame->width)
        stop("a place outside the record");
}

/* Sets a frame's spoilt bytes. */
static void spoil(uint8_t *held, const struct frame *frame)
{
    uint32_t i;
    for (i = 0; i < frame->width; i++)
        held[frame->place + i] = (uint8_t)(frame->value >> (8 * i));
}

/* Lends what a frame says; a table follows on the input. */
static void lend(const struct frame *frame)
{
    uint8_t *held = record_end - YAGOMILA_RECORD_BYTES;
    fill(held - BEFORE, BEFORE, frame->pattern);
    memcpy(held, record, sizeof record);
    spoil(held, frame);
    fill(bytes_end - frame->length - BEFORE, BEFORE + frame->length, frame->pattern);
    if (frame->call == START)
        take_bytes(bytes_end - frame->length, frame->length);
    fill(first_end - FIRST_BYTES - BEFORE, BEFORE + FIRST_BYTES, frame->pattern);
    fill(second_end - SECOND_BYTES - BEFORE, BEFORE + SECOND_BYTES, frame->pattern);
}

/* The last bytes before a page that must not be touched. */
static void *last(uint8_t *end, size_t bytes)
{
    return end - bytes;
}

/* Makes a frame's call and answers its refusal. */
static uint32_t make(const struct frame *frame)
{
    yagomila_record *held = last(record_end, YAGOMILA_RECORD_BYTES);
    uint8_t *bytes = frame->null && frame->length == 0 ? NULL : bytes_end - frame->length;
    size_t number = (size_t)frame->number;
    switch (frame->call) {
    case LIST:
        return yagomila_list(held, bytes, frame->length, last(first_end, sizeof(int64_t)));
    case RELEASE:
        return yagomila_release(held, number, frame->time, last(first_end, sizeof(size_t)), last(second_end, SECOND_BYTES));
    case FINISH:
        return yagomila_finish(held, number, frame->time, last(first_end, sizeof(int64_t)));
    case LOOK:
        return yagomila_look(held, number, frame->time, last(first_end, FIRST_BYTES));
    case START:
        return yagomila_start(held, (uint32_t)frame->number, bytes, frame->length);
    }
    stop("no such call");
    return 0;
}

/* Answers with all that was lent, as it stands now. */
static void put_lent(const struct frame *frame)
{
    put_bytes(record_end - YAGOMILA_RECORD_BYTES - BEFORE, BEFORE + YAGOMILA_RECORD_BYTES);
    put_bytes(bytes_end - frame->length - BEFORE, BEFORE + frame->length);
    put_bytes(first_end - FIRST_BYTES - BEFORE, BEFORE + FIRST_BYTES);
    put_bytes(second_end - SECOND_BYTES - BEFORE, BEFORE + SECOND_BYTES);
}

int main(void)
{
    struct frame frame;
    record_end = guarded(BEFORE + YAGOMILA_RECORD_BYTES);
    bytes_end = guarded(BEFORE + BYTES_MOST);
    first_end = guarded(BEFORE + FIRST_BYTES);
    second_end = guarded(BEFORE + SECOND_BYTES);
    take_bytes(record, sizeof record);
    while (!input_ends()) {
        read_head(&frame);
        lend(&frame);
        put_number(make(&frame), 4);
        put_lent(&frame);
        if (frame.kept)
            memcpy(record, record_end - sizeof record, sizeof record);
    }
    return fflush(stdout) == 0 ? 0 : 2;
}
