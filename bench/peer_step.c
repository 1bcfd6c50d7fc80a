/* The peer's entries for the step in two operations: document 02, P7. */
#include "peer_step.h"

#include "peer.h"

/* "The image on hand may be any two ends in each coordinate from -2^46 to 2^46." */
static const int64_t image_max = INT64_C(1) << 46;

/* "checked like a job's lo and hi, but with line 0": 4 for any end, then 5 */
static enum floodrafter_fault check_box(const floodrafter_box *b, size_t n, int64_t limit)
{
    bool far = false, crossed = false;
    for (size_t i = 0; i < n; i++) {
        far |= beyond(b->lo[i], limit) || beyond(b->hi[i], limit);
        crossed |= b->hi[i] < b->lo[i];
    }
    return far ? FLOODRAFTER_BEYOND : crossed ? FLOODRAFTER_CROSSED : FLOODRAFTER_DONE;
}

static void sides_of(const floodrafter_box *b, size_t n, struct interval *sides)
{
    for (size_t i = 0; i < n; i++)
        sides[i] = (struct interval){b->lo[i], b->hi[i]};
}

/* "places past n play no part; a reader and every result leave them zero" */
static floodrafter_box box_of(const struct interval *sides, size_t n)
{
    floodrafter_box b = {{0}, {0}};
    for (size_t i = 0; i < n; i++) {
        b.lo[i] = sides[i].lo;
        b.hi[i] = sides[i].hi;
    }
    return b;
}

floodrafter_shown peer_start(const uint8_t *text, size_t text_len)
{
    struct job job;
    floodrafter_answer read = read_job(text, text_len, &job);
    if (read.fault != FLOODRAFTER_DONE)
        return (floodrafter_shown){.fault = read.fault, .line = read.line};
    floodrafter_shown s = {.n = job.n};
    for (size_t i = 0; i < job.n; i++) {
        s.box.lo[i] = job.lo[i];
        s.box.hi[i] = job.hi[i];
    }
    return s;
}

/* "one operation gives K for a job and a box" */
floodrafter_shown peer_image(const uint8_t *text, size_t text_len, floodrafter_box x)
{
    struct job job;
    struct interval sides[UNKNOWNS_MAX], k[UNKNOWNS_MAX];
    floodrafter_answer read = read_job(text, text_len, &job);
    if (read.fault != FLOODRAFTER_DONE)
        return (floodrafter_shown){.fault = read.fault, .line = read.line};
    enum floodrafter_fault f = check_box(&x, job.n, END_MAX);
    if (f != FLOODRAFTER_DONE)
        return (floodrafter_shown){.fault = f};
    for (size_t i = 0; i < job.n; i++)
        build_equation(&job, i);
    sides_of(&x, job.n, sides);
    image(&job, sides, k);
    return (floodrafter_shown){.n = job.n, .box = box_of(k, job.n)};
}

/* "the other takes X and K and gives the verdict or the next box", "Refusals, line 0: 3 for that n, first; 4 beyond the image's range, then 5 for its ends
 * crossed, after the job's and the box's own." */
floodrafter_move peer_decide(size_t n, floodrafter_box x, floodrafter_box k)
{
    struct interval sides[UNKNOWNS_MAX], k_sides[UNKNOWNS_MAX];
    if (n < 1 || UNKNOWNS_MAX < n)
        return (floodrafter_move){.fault = FLOODRAFTER_UNKNOWNS};
    enum floodrafter_fault f = check_box(&x, n, END_MAX);
    if (f == FLOODRAFTER_DONE)
        f = check_box(&k, n, image_max);
    if (f != FLOODRAFTER_DONE)
        return (floodrafter_move){.fault = f};
    enum verdict verdict;
    sides_of(&x, n, sides);
    sides_of(&k, n, k_sides);
    bool decided = decide(sides, k_sides, n, &verdict);
    return (floodrafter_move){.verdict = decided ? (uint64_t)verdict : FLOODRAFTER_NEXT, .box = box_of(sides, n)};
}
