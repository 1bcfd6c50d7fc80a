#include "peer_halve.h"

#include "peer_run.h"

/* The boxes listed so far. */
struct list {
    int64_t *at;
    size_t boxes;
};

/* "places past n play no part; a reader and every result leave them zero" */
static void list_box(struct list *list, const struct outcome *o, size_t n)
{
    int64_t *entry = list->at + FLOODRAFTER_LISTED * list->boxes++;
    memset(entry, 0, FLOODRAFTER_LISTED * sizeof *entry);
    entry[0] = o->verdict == UNIQUE;
    for (size_t i = 0; i < n; i++) {
        entry[1 + i] = o->box[i].lo;
        entry[1 + FLOODRAFTER_N + i] = o->box[i].hi;
    }
}

static int64_t width(struct interval edge)
{
    return edge.hi - edge.lo;
}

/* "its widest edge (lowest number on ties)" */
static struct interval *widest_of(struct interval *box, size_t n)
{
    struct interval *widest = box;
    for (size_t i = 1; i < n; i++) {
        if (width(*widest) < width(box[i]))
            widest = &box[i];
    }
    return widest;
}

/* "Run the job; drop the box on none, list it on unique. On stalled or spent take the returned box." On unique too, it
 * is the returned box that is listed. */
static void halve(const struct job *job, const struct interval *box, int64_t depth, struct list *list)
{
    struct outcome o;
    memcpy(o.box, box, job->n * sizeof *box);
    run_on_box(job, &o);
    if (o.verdict == NONE)
        return;
    struct interval *widest = widest_of(o.box, job->n), edge = *widest;
    if (o.verdict == UNIQUE || depth == 0 || width(edge) < 2) {
        list_box(list, &o, job->n);
        return;
    }
    /* "cut that edge at the rounded-down middle, both halves keeping the cut, and do the low half first" */
    int64_t middle = (edge.lo + edge.hi) >> 1;
    *widest = (struct interval){edge.lo, middle};
    halve(job, o.box, depth - 1, list);
    *widest = (struct interval){middle, edge.hi};
    halve(job, o.box, depth - 1, list);
}

/* "Refusals: the job's own, then 8 for depth not 0 to 8, then 7 where the list can't hold two to the power of the
 * depth" */
floodrafter_listing peer_halve(const uint8_t *text, size_t text_len, int64_t depth, int64_t *list, size_t list_len)
{
    struct job job;
    floodrafter_answer read = read_job(text, text_len, &job);
    if (read.fault != FLOODRAFTER_DONE)
        return (floodrafter_listing){.fault = read.fault, .line = read.line};
    if (depth < 0 || FLOODRAFTER_DEPTH_MAX < depth)
        return (floodrafter_listing){.fault = FLOODRAFTER_STEPS};
    if (list_len / FLOODRAFTER_LISTED < (size_t)1 << depth)
        return (floodrafter_listing){.fault = FLOODRAFTER_SHORT_BUFFER};
    struct interval box[UNKNOWNS_MAX];
    struct list listed = {.at = list};
    begin_job(&job, box);
    halve(&job, box, depth, &listed);
    return (floodrafter_listing){.n = job.n, .boxes = listed.boxes};
}
