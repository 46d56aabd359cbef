/* The fuzzer's input: see input.h. */
#include "input.h"

static const uint8_t *in, *in_end;

void read_from(const uint8_t *input, size_t len)
{
    in = input;
    in_end = input + len;
}

int is_left(void)
{
    return in < in_end;
}

uint8_t byte(void)
{
    return is_left() ? *in++ : 0;
}

void bytes(void *to, size_t many)
{
    size_t i;
    for (i = 0; i < many; i++)
        ((uint8_t *)to)[i] = byte();
}

uint64_t number(void)
{
    uint64_t value = byte();
    if (value == 255)
        bytes(&value, sizeof value);
    return value;
}
