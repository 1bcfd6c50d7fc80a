/* The calls on the table of rooms, through the header: what they answer, and what they leave of the table. */
#ifndef ROOMS_H
#define ROOMS_H

#include "expect.h"

/* A table, and bytes behind it that no call changes. */
struct lent {
    uint8_t table[FLOODRAFTER_TABLE];
    uint8_t behind[64];
};

/* What a call answers: zero where it has no such number. */
struct room_answer {
    uint64_t fault, line, slot, visit;
    size_t len;
};

/* The request is a call on a table: it is made on these bytes. */
struct room_answer call_room(const struct request *r, uint8_t *table, size_t table_len, uint8_t *out, size_t out_len);

/* The request is a call on the one table that a run of requests has, "which is cleared at its start". */
void ask_room(const struct asked *r);

#endif
