/* The times of the library and of the peer. */
#ifndef TIMING_H
#define TIMING_H

#include "jobs.h"

enum { LIBRARY, PEER, SOLVERS };

/* What is timed: a text is checked, at once or in parts of 64 bytes; it is solved; its box is halved at the greatest
 * depth. */
enum entry { CHECK, CHECK_PARTS, SOLVE, HALVE };

/* Seconds of one call, or of one step, of each solver. */
struct times {
    double of[SOLVERS];
};

/* The thread's own processor time, which what else the machine does hardly moves. */
double processor_seconds(void);

double seconds_of(int solver, enum entry entry, const struct text *text, long calls);

/* Seconds of so many calls of a solver on some work. */
typedef double timed(int solver, const void *work, long calls);

/* The solvers take turns, so that what slows the machine for a while slows both. */
struct times measure_work(timed *seconds, const void *work);

struct times measure(enum entry entry, const struct text *text);

/* The time of the library over the time of the peer. */
double ratio(struct times t);

/* Halves the box of a text, into a list that is long enough for any depth, and gives how many boxes are listed. */
size_t boxes_of(int solver, const struct text *text, int64_t depth);

#endif
