/* A job text read in parts of 64 bytes, by the library and by the peer. */
#ifndef IN_PARTS_H
#define IN_PARTS_H

#include "floodrafter.h"

enum { PART = 64 };

/* Begun, taken part by part, ended: the text's fault and line. */
floodrafter_answer library_in_parts(const uint8_t *text, size_t text_len);

floodrafter_answer peer_in_parts(const uint8_t *text, size_t text_len);

#endif
