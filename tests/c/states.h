/* The state of a text in parts, through the header: its limits, and values that no text leads to. */
#ifndef STATES_H
#define STATES_H

#include "expect.h"

/* States that no request has. */
void expect_states(const struct asked *r);

#endif
