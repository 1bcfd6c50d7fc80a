/* The peer's table of rooms: document 02, P12, with the form and the answers of docs/ROOMS.md. */
#ifndef PEER_ROOMS_H
#define PEER_ROOMS_H

#include "floodrafter.h"

/* The table: a number, then the slots. A slot: the length of the reading, the reading, the length of the job text, the
 * job text. */
enum { NUMBER_SIZE = 4, JOB_MAX = 2044, JOB_AT = NUMBER_SIZE + FLOODRAFTER_READING_MAX, SLOT_SIZE = 2304 };

static inline size_t slot_at(size_t slot)
{
    return NUMBER_SIZE + SLOT_SIZE * slot;
}

floodrafter_answer peer_room_clear(uint8_t *table, size_t table_len);

floodrafter_opened peer_room_open(uint8_t *table, size_t table_len, const uint8_t *text, size_t text_len);

floodrafter_answer peer_room_step(uint8_t *table, size_t table_len, uint64_t slot, uint64_t visit, uint8_t *out,
                                  size_t out_len);

floodrafter_answer peer_room_reading(const uint8_t *table, size_t table_len, uint64_t slot, uint64_t visit,
                                     uint8_t *out, size_t out_len);

floodrafter_answer peer_room_close(uint8_t *table, size_t table_len, uint64_t slot, uint64_t visit);

#endif
