/* The job texts that the bench times, made from a small table. */
#ifndef JOBS_H
#define JOBS_H

#include "floodrafter.h"

struct text {
    uint8_t bytes[FLOODRAFTER_TEXT_MAX];
    size_t len;
};

/* A sort of job: its kind and n; for a polynomial one, the greatest degree and the number of terms of an equation; for
 * an eigen one with a pin line, the pin. */
struct sort {
    const char *kind;
    int n, degree, terms, pin;
};

extern const struct sort sorts[];
extern const size_t sort_count;

/* LATE: a zero at the box's lowest corner, which keeps every image from lying strictly inside, and 1/128 of the inverse: hundreds of small cuts, then stalled or, with
 * 6 unknowns, spent.
 * SOON: a zero inside a small box and the inverse itself, as a typist would hand it in: unique after a step or two.
 * DEEP: LATE with 1/1024 of the inverse: two steps cut so little that halving drops no box and lists as many as its
 * depth allows. */
enum pace { LATE, SOON, DEEP };

void write_job(const struct sort *sort, enum pace pace, int steps, struct text *text);

/* The longest job that is taken; with `extra` more terms in its last line, which is read to its end and then refused by 6. */
void write_longest_job(int extra, struct text *text);

#endif
