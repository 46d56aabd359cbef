/* What a call is lent: bytes that end where a page begins that must not be touched, after bytes that no call may change. */
#ifndef LENT_H
#define LENT_H

#include <stddef.h>
#include <stdint.h>

/* The longest of each that is lent, and what bytes are filled with that hold nothing. */
#define TABLE_MOST 600
#define BUFFER_MOST 20000
#define FILLED 0xA5

/* The rooms: the record, the table, the buffer, an answer's numbers, and its second number. */
enum room { RECORD, TABLE, BUFFER, ANSWER, SECOND, ROOMS };

/* Makes the rooms, once. */
void make_rooms(void);

/* So many filled bytes at the end of a room; null where there are none. */
void *lend(enum room room, size_t bytes);

/* A room's lent bytes; null where there are none. */
void *lent(enum room room);

/* Copies all that is lent, and the bytes before it. */
void copy_all(void);

/* The copy of a room's lent bytes, for another to be lent; null where there are none. */
void *copied(enum room room);

/* Whether all bytes of all rooms, and those before them, are those of the copies. */
int same_all(void);

/* A number that those bytes make. */
uint64_t checksum(void);

#endif
