/* The peer's entry for all closing positions of a job: document 02, P8. */
#ifndef PEER_HALVE_H
#define PEER_HALVE_H

#include "floodrafter.h"

floodrafter_listing peer_halve(const uint8_t *text, size_t text_len, int64_t depth, int64_t *list, size_t list_len);

#endif
