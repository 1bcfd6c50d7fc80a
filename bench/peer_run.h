/* The run of a job on a box.
 * It stands in a header, as the step does, so that the compiler builds it into each entry, all of which are timed. */
#ifndef PEER_RUN_H
#define PEER_RUN_H

#include "peer_step.h"

/* Builds the equations of a linear or eigen job in its `equations`, and gives the box that the job hands in. */
static void begin_job(struct job *job, struct interval *box)
{
    for (size_t i = 0; i < job->n; i++) {
        build_equation(job, i);
        box[i] = (struct interval){job->lo[i], job->hi[i]};
    }
}

/* Runs a job that was begun, on the box that stands in the outcome. */
static void run_on_box(const struct job *job, struct outcome *o)
{
    o->verdict = SPENT;
    o->steps = 0;
    while (o->steps < job->steps) {
        struct interval k[UNKNOWNS_MAX];
        enum verdict verdict;
        image(job, o->box, k);
        o->steps++;
        if (decide(o->box, k, job->n, &verdict)) {
            o->verdict = verdict;
            break;
        }
    }
}

#endif
