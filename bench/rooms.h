/* The calls on the table of rooms, of both solvers. */
#ifndef ROOMS_H
#define ROOMS_H

#include <stdbool.h>

#include "floodrafter.h"

enum room_call { CLEAR, OPEN, STEP, READING, CLOSE, ROOM_CALLS };

/* The call of a word, or ROOM_CALLS. */
enum room_call room_call_of(const char *word);

/* What a call is shown. What it does not take plays no part. */
struct room_shown {
    uint64_t slot, visit;
    const uint8_t *text;
    size_t text_len, out_len;
};

/* The bytes behind a lent table and a lent buffer show one that is written too far. */
enum { BEHIND = 64 };

/* A table and a buffer, and what the last call answered: zero where it has no such number. */
struct room_state {
    floodrafter_opened answer;
    size_t len;
    uint8_t table[FLOODRAFTER_TABLE + BEHIND];
    uint8_t out[FLOODRAFTER_TEXT_MAX + BEHIND];
};

void call_room(int solver, enum room_call call, const struct room_shown *shown, struct room_state *state);

/* Both make the call, each on its own table. Tells on standard output of a difference in an answer, or in a byte. */
bool same_room(enum room_call call, const struct room_shown *shown, struct room_state *library,
               struct room_state *peer);

#endif
