/*
 * Stands in for the product where `rounds.c` itself is tested: each call is accepted and answers with what it was
 * handed, and the clock counts the calls.
 */
#include "yagomila.h"

uint32_t yagomila_admit(uint32_t cores, const uint8_t *table, size_t table_len)
{
    uint32_t sum = 0;
    size_t i;
    for (i = 0; i < table_len; i++)
        sum += (uint32_t)table[i] << (8 * (i % 4));
    return cores * sum;
}

uint32_t yagomila_start(yagomila_record *held, uint32_t cores, const uint8_t *table, size_t table_len)
{
    held->plan.common_period = yagomila_admit(cores, table, table_len);
    held->clock = 0;
    return 0;
}

uint32_t yagomila_release(yagomila_record *held, size_t task, uint64_t time, size_t *core, uint64_t *deadline)
{
    held->clock++;
    *core = 1000 * task;
    *deadline = time;
    return 0;
}

uint32_t yagomila_finish(yagomila_record *held, size_t task, uint64_t time, int64_t *late)
{
    held->clock++;
    *late = (int64_t)(2000 * task + time);
    return 0;
}

uint32_t yagomila_look(yagomila_record *held, size_t core, uint64_t time, yagomila_choice *choice)
{
    if (core == 0)
        return YAGOMILA_REFUSED_NO_CORE;
    held->clock++;
    choice->task = 3000 * core;
    choice->deadline = time;
    return 0;
}

uint32_t yagomila_list(const yagomila_record *held, uint8_t *buf, size_t buf_len, int64_t *len)
{
    if (buf_len > 0)
        buf[0] = 0;
    *len = (int64_t)held->clock;
    return 0;
}
