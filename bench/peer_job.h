/* What the peer's reader, run and writer hand to each other. */
#ifndef PEER_JOB_H
#define PEER_JOB_H

#include <stdbool.h>

#include "floodrafter.h"

/* Document 01, "Numbers and sizes", with the n of document 02, P10. */
enum {
    UNKNOWNS_MAX = FLOODRAFTER_N,
    TERMS_MAX = 16,
    DEGREE_MAX = 3,
    STEPS_MAX = 1000,
    NUMBER_MAX = 999999999,
    END_MAX = 262144,
    ENTRY_MAX = 4194304,
    MARKS = 65536
};

enum kind { POLY, LINEAR, EIGEN };

enum verdict { NONE = FLOODRAFTER_NONE, UNIQUE = FLOODRAFTER_UNIQUE, STALLED = FLOODRAFTER_STALLED, SPENT };

struct interval {
    int64_t lo, hi;
};

struct term {
    int64_t coefficient;
    uint8_t exponents[UNKNOWNS_MAX];
};

struct equation {
    size_t count;
    struct term terms[TERMS_MAX];
};

/* A polynomial job has its system in `equations`, the others in `rows`, a linear one with the right side as the last of its n + 1 numbers.
 * `pin` counts the coordinates of an eigenvector from 1. */
struct job {
    int64_t number;
    enum kind kind;
    size_t n;
    int64_t pin;
    int64_t lo[UNKNOWNS_MAX], hi[UNKNOWNS_MAX];
    int64_t inverse[UNKNOWNS_MAX * UNKNOWNS_MAX];
    int64_t steps;
    struct equation equations[UNKNOWNS_MAX];
    int64_t rows[UNKNOWNS_MAX][UNKNOWNS_MAX + 1];
};

/* `visit` is "0 for a job run alone". */
struct outcome {
    int64_t visit;
    enum verdict verdict;
    int64_t steps;
    struct interval box[UNKNOWNS_MAX];
};

/* Is the number beyond its size, which is the same either way? */
static inline bool beyond(int64_t value, int64_t limit)
{
    return value < -limit || limit < value;
}

/* Reads a job text: its fault and line. Only a job without a fault is whole. */
floodrafter_answer read_job(const uint8_t *text, size_t text_len, struct job *job);

/* Runs a job. The equations of a linear or eigen job are built in its `equations`. */
struct outcome run_job(struct job *job);

#endif
