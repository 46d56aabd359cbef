/*
 * What host.c and lent_records.c share: frames on standard input and output, all numbers least byte first, and memory
 * that ends where a page begins that must not be touched.
 */
#ifndef FRAME_H
#define FRAME_H

#include <stddef.h>
#include <stdint.h>

/* Bytes in front of all that is lent, which are answered too. */
#define BEFORE 64

/* Ends the program and says why. */
void stop(const char *why);

/* Room for so many bytes right before a page that must not be touched; answers where they end. */
uint8_t *guarded(size_t bytes);

/* Fills memory with a pattern that starts with the given byte. */
void fill(uint8_t *from, size_t length, uint32_t pattern);

/* Whether the input has no further byte. */
int input_ends(void);

/* Reads so many bytes; the input must have them. */
void take_bytes(uint8_t *to, size_t length);

/* Reads a number of so many bytes. */
uint64_t take_number(int bytes);

void put_bytes(const uint8_t *from, size_t length);

/* Writes a number of so many bytes. */
void put_number(uint64_t value, int bytes);

#endif
