/* A job text in parts, through the header: what is held on the way, and at the end the answers to the whole text. */
#ifndef PARTS_H
#define PARTS_H

#include "expect.h"

/* The request is `parts`: its text comes in the parts that its line names. */
void ask_parts(const struct asked *r);

/* The request's text is a job: it comes in parts of 64 bytes and, where the request is a tenth one, byte by byte. */
void ask_in_parts(const struct asked *r);

#endif
