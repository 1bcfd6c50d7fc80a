/* The steps of a job through the header: a box, its image, and what the two decide. */
#ifndef STEPS_H
#define STEPS_H

#include "expect.h"

/* The request's text is a job: n, lo and hi are those that stand in it, or it has its fault. */
void ask_start(const struct asked *r);

/* The request is `solve`: the run goes through the two operations, step by step. */
void ask_walk(const struct asked *r);

/* The request is `image`. */
void ask_image(const struct asked *r);

/* The request is `decide`. */
void ask_decide(const struct asked *r);

/* Numbers that no request has. */
void expect_step_limits(const struct asked *r);

#endif
