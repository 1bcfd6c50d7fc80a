/* Lines as the program prints them, and lines of a text. */
#ifndef PRINTED_H
#define PRINTED_H

#include "requests.h"

/* Enough for the lines of a step and for those of a listed box: words, a count, and two lists of numbers, each number
 * with what stands behind it. */
enum { NUMBER_MAX = 21, PRINTED = 64 + 2 * FLOODRAFTER_N * NUMBER_MAX };

struct printed {
    char text[PRINTED];
    size_t len;
};

/* Each adds a line. */
void print_word(struct printed *p, const char *key, const char *word);
void print_count(struct printed *p, const char *key, uint64_t count);
void print_list(struct printed *p, const char *key, const int64_t *ends, size_t n);

bool begins(struct bytes text, const char *with, size_t len);

/* A text from the line with that key on. */
struct bytes from_line(struct bytes text, const char *key);

#endif
