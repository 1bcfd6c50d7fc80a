/* The peer's reader of a job text that arrives in parts: document 02, P1. */
#ifndef PEER_PARTS_H
#define PEER_PARTS_H

#include "peer_job.h"

/* "It may hold only one line and what is already read." */
struct peer_parts {
    size_t size;          /* the bytes that came, at most one more than a text may have */
    size_t held;          /* those of them that are of the line that has not ended */
    size_t next;          /* the next line's place in the order of all lines */
    uint64_t fault, line; /* of the first bad line; while there is none, `line` is the last line that ended */
    struct job job;
    uint8_t bytes[FLOODRAFTER_TEXT_MAX];
};

void peer_begin(struct peer_parts *p);

void peer_take(struct peer_parts *p, const uint8_t *part, size_t part_len);

floodrafter_answer peer_end_check(const struct peer_parts *p);

floodrafter_answer peer_end_solve(struct peer_parts *p, uint8_t *out, size_t out_len);

#endif
