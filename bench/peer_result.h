/* The writer of a result text.
 * It stands in a header, as the step does, so that the compiler builds it into each entry, two of which are timed. */
#ifndef PEER_RESULT_H
#define PEER_RESULT_H

#include <string.h>

#include "peer_job.h"

/* Enough for the longest result text, of 159 bytes. */
enum { RESULT_MAX = 160 };

static uint8_t *put_bytes(uint8_t *p, const char *bytes, size_t len)
{
    memcpy(p, bytes, len);
    return p + len;
}

#define PUT(p, literal) put_bytes(p, literal, sizeof literal - 1)

static uint8_t *put_number(uint8_t *p, int64_t value)
{
    uint8_t digits[9];
    size_t first = sizeof digits;
    uint32_t magnitude = (uint32_t)(value < 0 ? -value : value);
    do {
        digits[--first] = (uint8_t)('0' + magnitude % 10);
        magnitude /= 10;
    } while (magnitude > 0);
    if (value < 0)
        *p++ = '-';
    while (first < sizeof digits)
        *p++ = digits[first++];
    return p;
}

static uint8_t *put_verdict(uint8_t *p, enum verdict verdict)
{
    switch (verdict) {
    case NONE:
        return PUT(p, "none");
    case UNIQUE:
        return PUT(p, "unique");
    case STALLED:
        return PUT(p, "stalled");
    default:
        return PUT(p, "spent");
    }
}

/* Writes the result text and gives its length. */
static size_t put_result(uint8_t *text, const struct job *job, const struct outcome *o)
{
    uint8_t *p = PUT(text, "job=");
    p = put_number(p, job->number);
    p = PUT(p, "\nvisit=");
    p = put_number(p, o->visit);
    p = PUT(p, "\nverdict=");
    p = put_verdict(p, o->verdict);
    p = PUT(p, "\nsteps=");
    p = put_number(p, o->steps);
    p = PUT(p, "\nlo=");
    for (size_t k = 0; k < job->n; k++) {
        p = put_number(p, o->box[k].lo);
        *p++ = k + 1 < job->n ? ',' : '\n';
    }
    p = PUT(p, "hi=");
    for (size_t k = 0; k < job->n; k++) {
        p = put_number(p, o->box[k].hi);
        *p++ = k + 1 < job->n ? ',' : '\n';
    }
    return (size_t)(p - text);
}

#endif
