/* What is expected of a request's answer, and what was not as expected. */
#ifndef EXPECT_H
#define EXPECT_H

#include "requests.h"

/* A request, the answer that is expected, and how many came before it. */
struct asked {
    struct request request;
    struct bytes answer;
    unsigned long before;
};

/* Tells on standard error of what does not hold, and counts it. */
void expect(bool holds, const struct asked *r, const char *what);

unsigned long failures(void);

bool same(struct bytes b, const void *at, size_t len);

/* A lent buffer, longer than every answer, and what its bytes are beforehand. */
enum { ROOM = 2 * FLOODRAFTER_TEXT_MAX, OLD = 0xA5 };

bool is_old(const uint8_t *from, size_t len);

bool is_zero(const uint8_t *from, size_t len);

/* Plain text, as a sentence is, without a line feed. */
bool is_plain(const uint8_t *from, size_t len);

/* The answer expected is this fault: the program tells it in two lines. */
void expect_told(const struct asked *r, uint64_t fault, uint64_t line);

/* "places past n .. a reader and every result leave them zero"; beside a fault n is 0. */
void expect_zero_past(const struct asked *r, size_t n, floodrafter_box b);

#endif
