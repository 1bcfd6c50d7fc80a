#define _POSIX_C_SOURCE 200809L

#include "timing.h"

#include <time.h>

#include "in_parts.h"
#include "peer.h"
#include "peer_halve.h"

/* Noise only ever adds time: the least of some rounds stands. */
enum { ROUNDS = 9 };
static const double round_seconds = 0.008;

typedef floodrafter_answer check_entry(const uint8_t *, size_t);
typedef floodrafter_answer solve_entry(const uint8_t *, size_t, uint8_t *, size_t);
typedef floodrafter_listing halve_entry(const uint8_t *, size_t, int64_t, int64_t *, size_t);

static check_entry *const check_entries[][SOLVERS] = {
    [CHECK] = {floodrafter_check_job, peer_check_job}, [CHECK_PARTS] = {library_in_parts, peer_in_parts}};
static solve_entry *const solve_entries[SOLVERS] = {floodrafter_solve, peer_solve};
static halve_entry *const halve_entries[SOLVERS] = {floodrafter_halve, peer_halve};

double processor_seconds(void)
{
    struct timespec t;
    clock_gettime(CLOCK_THREAD_CPUTIME_ID, &t);
    return (double)t.tv_sec + 1e-9 * (double)t.tv_nsec;
}

size_t boxes_of(int solver, const struct text *text, int64_t depth)
{
    static int64_t list[FLOODRAFTER_BOXES_MAX * FLOODRAFTER_LISTED];
    return halve_entries[solver](text->bytes, text->len, depth, list, sizeof list / sizeof list[0]).boxes;
}

double seconds_of(int solver, enum entry entry, const struct text *text, long calls)
{
    static uint8_t out[FLOODRAFTER_TEXT_MAX];
    double start = processor_seconds();
    for (long k = 0; k < calls; k++) {
        if (entry == SOLVE)
            solve_entries[solver](text->bytes, text->len, out, sizeof out);
        else if (entry == HALVE)
            boxes_of(solver, text, FLOODRAFTER_DEPTH_MAX);
        else
            check_entries[entry][solver](text->bytes, text->len);
    }
    return processor_seconds() - start;
}

/* How many calls fill a round. */
static long calls_of(timed *seconds, int solver, const void *work)
{
    long calls = 1;
    while (seconds(solver, work, calls) < round_seconds / 2)
        calls *= 2;
    return calls * 2;
}

struct times measure_work(timed *seconds, const void *work)
{
    struct times best;
    long calls[SOLVERS];
    for (int solver = 0; solver < SOLVERS; solver++) {
        calls[solver] = calls_of(seconds, solver, work);
        best.of[solver] = 1e9;
    }
    for (int round = 0; round < ROUNDS; round++) {
        for (int solver = 0; solver < SOLVERS; solver++) {
            double one = seconds(solver, work, calls[solver]) / (double)calls[solver];
            if (one < best.of[solver])
                best.of[solver] = one;
        }
    }
    return best;
}

struct text_work {
    enum entry entry;
    const struct text *text;
};

static double seconds_of_text(int solver, const void *work, long calls)
{
    const struct text_work *w = work;
    return seconds_of(solver, w->entry, w->text, calls);
}

struct times measure(enum entry entry, const struct text *text)
{
    struct text_work work = {entry, text};
    return measure_work(seconds_of_text, &work);
}

double ratio(struct times t)
{
    return t.of[LIBRARY] / t.of[PEER];
}
