/* Visits to a table of rooms that has no other visitor, and the limits of a table. */
#ifndef VISITS_H
#define VISITS_H

#include "expect.h"

/* The request's text is a job: a visit begins with it, or it has its fault. */
void ask_opened(const struct asked *r);

/* The request is `solve`: the run goes through a visit, step by step. */
void ask_visit(const struct asked *r);

/* Tables and numbers that no request has. */
void expect_room_limits(const struct asked *r);

#endif
