/* All closing positions of a job, through the header: what is listed, and the numbers of the lent list. */
#ifndef LISTS_H
#define LISTS_H

#include "expect.h"

/* The request is `halve`: the list has room for as many boxes as its line says. */
void ask_halve(const struct asked *r);

/* Depths and lists that no request has. */
void expect_list_limits(const struct asked *r);

#endif
