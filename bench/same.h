/* Do the library and the peer give the same answers? */
#ifndef SAME_H
#define SAME_H

#include <stdbool.h>

#include "floodrafter.h"

/* Tells of a difference on standard output: the text and both answers. The text is solved and checked, at once and in
 * parts of 64 bytes, its first step is done, and its box is halved at depth 2. */
bool same_answers(const uint8_t *text, size_t text_len);

/* The same for the halving of its box alone, at any depth, into a list of FLOODRAFTER_BOXES_MAX boxes at most. */
bool same_halved(const uint8_t *text, size_t text_len, int64_t depth, size_t list_len);

/* The same for every request in a file of requests, each a line `OP ARGS.. LENGTH` and LENGTH bytes: for its text, for
 * the parts, the box, the image, the depth and the list in its line, and for the calls on the table of rooms. `count` is
 * how many there are. */
bool same_answers_in_file(const char *name, size_t *count);

/* Prints a text that is answered in two ways. */
void tell_text(const uint8_t *text, size_t text_len);

#endif
