/* What the readers of both texts share: keys, numbers, lists, and the lines that a job and a result spell alike. They
 * stand in a header so that the compiler builds them into each reader. */
#ifndef PEER_SCAN_H
#define PEER_SCAN_H

#include <string.h>

#include "peer_job.h"

/* The text between the next byte and the end of its last finished line. Each line in it ends in LF, which no number or word holds: so nothing that is read
 * from inside a line on runs over the end. */
struct reader {
    const uint8_t *at, *end;
    uint64_t line;
};

typedef enum floodrafter_fault fault;

/* Takes some bytes that must come next. */
static bool take(struct reader *r, const char *bytes, size_t len)
{
    if ((size_t)(r->end - r->at) < len || memcmp(r->at, bytes, len) != 0)
        return false;
    r->at += len;
    return true;
}

/* The key of the next line. */
static bool key(struct reader *r, const char *bytes, size_t len)
{
    r->line++;
    return take(r, bytes, len);
}

#define TAKE(r, literal) take(r, literal, sizeof literal - 1)
#define KEY(r, literal) key(r, literal, sizeof literal - 1)

/* "an optional minus, 1 to 9 digits, no leading zero, no minus zero": the place after the number, or null. A digit after a zero or after nine digits is
 * left to the caller, who wants another byte there. */
static const uint8_t *read_number(const uint8_t *p, int64_t *value)
{
    bool minus = *p == '-';
    p += minus;
    uint32_t magnitude = (uint32_t)*p++ - '0';
    if (magnitude > 9 || (minus && magnitude == 0))
        return NULL;
    if (magnitude != 0) {
        for (int more = 8; more > 0; more--, p++) {
            uint32_t digit = (uint32_t)*p - '0';
            if (digit > 9)
                break;
            magnitude = magnitude * 10 + digit;
        }
    }
    *value = minus ? -(int64_t)magnitude : (int64_t)magnitude;
    return p;
}

/* The rest of a line: `count` numbers, each at most `limit` either way. */
static fault read_list(struct reader *r, int64_t *values, size_t count, int64_t limit)
{
    const uint8_t *p = r->at;
    bool far = false;
    for (size_t i = 0; i < count; i++) {
        p = read_number(p, &values[i]);
        if (p == NULL || *p++ != (i + 1 < count ? ',' : '\n'))
            return FLOODRAFTER_SPELLING;
        far |= beyond(values[i], limit);
    }
    r->at = p;
    return far ? FLOODRAFTER_BEYOND : FLOODRAFTER_DONE;
}

static fault read_job_number(struct reader *r, struct job *job)
{
    if (!KEY(r, "job="))
        return FLOODRAFTER_SPELLING;
    fault f = read_list(r, &job->number, 1, NUMBER_MAX);
    return f == FLOODRAFTER_DONE && job->number < 0 ? FLOODRAFTER_BEYOND : f;
}

static fault read_low_ends(struct reader *r, struct job *job)
{
    return KEY(r, "lo=") ? read_list(r, job->lo, job->n, END_MAX) : FLOODRAFTER_SPELLING;
}

static fault read_high_ends(struct reader *r, struct job *job)
{
    if (!KEY(r, "hi="))
        return FLOODRAFTER_SPELLING;
    fault f = read_list(r, job->hi, job->n, END_MAX);
    for (size_t k = 0; f == FLOODRAFTER_DONE && k < job->n; k++) {
        if (job->hi[k] < job->lo[k])
            return FLOODRAFTER_CROSSED;
    }
    return f;
}

/* Any number beyond the limits is fault 8 here, so that none is beyond its size. */
static fault read_steps(struct reader *r, struct job *job)
{
    if (!KEY(r, "steps="))
        return FLOODRAFTER_SPELLING;
    fault f = read_list(r, &job->steps, 1, NUMBER_MAX);
    return f == FLOODRAFTER_DONE && (job->steps < 0 || STEPS_MAX < job->steps) ? FLOODRAFTER_STEPS : f;
}

#endif
