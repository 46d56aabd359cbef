/* The calls as the second program answers them (second/oracle), with the header's signatures. */
#ifndef ORACLE_H
#define ORACLE_H

#include "yagomila.h"

uint32_t oracle_admit(uint32_t cores, const uint8_t *table, size_t table_len);
int64_t oracle_listing(uint32_t cores, const uint8_t *table, size_t table_len, uint8_t *buf, size_t buf_len);
uint32_t oracle_start(yagomila_record *held, uint32_t cores, const uint8_t *table, size_t table_len);
uint32_t oracle_release(yagomila_record *held, size_t task, uint64_t time, size_t *core, uint64_t *deadline);
uint32_t oracle_finish(yagomila_record *held, size_t task, uint64_t time, int64_t *late);
uint32_t oracle_look(yagomila_record *held, size_t core, uint64_t time, yagomila_choice *choice);
uint32_t oracle_list(const yagomila_record *held, uint8_t *buf, size_t buf_len, int64_t *len);

#endif
