/* The peer: the solver of documents 01 and 02 in plain C, with the answers of the proved library to the mark. The bench times the two side by side. */
#ifndef PEER_H
#define PEER_H

#include "floodrafter.h"

floodrafter_answer peer_solve(const uint8_t *text, size_t text_len, uint8_t *out, size_t out_len);

floodrafter_answer peer_check_job(const uint8_t *text, size_t text_len);

floodrafter_shown peer_start(const uint8_t *text, size_t text_len);

floodrafter_shown peer_image(const uint8_t *text, size_t text_len, floodrafter_box x);

floodrafter_move peer_decide(size_t n, floodrafter_box x, floodrafter_box k);

#endif
