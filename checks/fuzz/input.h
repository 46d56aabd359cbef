/* The fuzzer's input, read from its start to its end. */
#ifndef INPUT_H
#define INPUT_H

#include <stddef.h>
#include <stdint.h>

void read_from(const uint8_t *input, size_t len);
int is_left(void);

/* A byte of the input, or so many; 0 past its end. */
uint8_t byte(void);
void bytes(void *to, size_t many);

/* Any number: a byte, or eight after a byte 255. */
uint64_t number(void);

#endif
