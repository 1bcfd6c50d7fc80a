/* The lines of a job text, each from its key to its LF: document 01, "The job text and the result text" and "Fault
 * numbers"; document 02, P2. They stand in a header so that the compiler builds them into both readers, that of a whole
 * text and that of a text in parts. */
#ifndef PEER_LINE_H
#define PEER_LINE_H

#include "peer_scan.h"

/* A term without what follows it: the place after it, or null. Its exponent digits are also given as one number, which tells the order of two terms. */
static const uint8_t *read_term(const uint8_t *p, size_t n, struct term *t, uint32_t *order, uint32_t *degree)
{
    p = read_number(p, &t->coefficient);
    if (p == NULL || *p++ != ':')
        return NULL;
    *order = *degree = 0;
    for (size_t k = 0; k < n; k++) {
        uint32_t digit = (uint32_t)*p - '0';
        if (digit > 9)
            return NULL;
        p++;
        t->exponents[k] = (uint8_t)digit;
        *order = *order * 10 + digit;
        *degree += digit;
    }
    return p;
}

/* The rest of an `eq` line. It is read to its end before 4 or 6 is given: "in one line 2 comes before the others, then 3, then 4, then 5 or 6". */
static fault read_equation(struct reader *r, struct equation *q, size_t n)
{
    const uint8_t *p = r->at;
    bool far = false, improper = false;
    uint32_t before = UINT32_MAX;
    q->count = 0;
    if (*p == '\n') {
        r->at = p + 1;
        return FLOODRAFTER_DONE;
    }
    do {
        struct term t;
        uint32_t order, degree;
        p = read_term(p, n, &t, &order, &degree);
        if (p == NULL)
            return FLOODRAFTER_SPELLING;
        far |= beyond(t.coefficient, ENTRY_MAX);
        improper |= t.coefficient == 0 || degree > DEGREE_MAX || order >= before || q->count == TERMS_MAX;
        before = order;
        if (q->count < TERMS_MAX)
            q->terms[q->count++] = t;
    } while (*p++ == ',');
    if (p[-1] != '\n')
        return FLOODRAFTER_SPELLING;
    r->at = p;
    return far ? FLOODRAFTER_BEYOND : improper ? FLOODRAFTER_TERMS : FLOODRAFTER_DONE;
}

static fault read_kind(struct reader *r, struct job *job)
{
    if (!KEY(r, "kind="))
        return FLOODRAFTER_SPELLING;
    if (TAKE(r, "poly\n"))
        job->kind = POLY;
    else if (TAKE(r, "linear\n"))
        job->kind = LINEAR;
    else if (TAKE(r, "eigen\n"))
        job->kind = EIGEN;
    else
        return FLOODRAFTER_SPELLING;
    return FLOODRAFTER_DONE;
}

/* "`n` is one digit." */
static fault read_unknowns(struct reader *r, struct job *job)
{
    if (!KEY(r, "n="))
        return FLOODRAFTER_SPELLING;
    uint32_t digit = (uint32_t)*r->at - '0';
    if (digit > 9 || r->at[1] != '\n')
        return FLOODRAFTER_SPELLING;
    r->at += 2;
    job->n = digit;
    return 1 <= digit && digit <= UNKNOWNS_MAX ? FLOODRAFTER_DONE : FLOODRAFTER_UNKNOWNS;
}

/* "Eigen jobs, and no others, get a line `pin=` after `n`", "Without the line the last is pinned", "9 for a written
 * pin of n, or any pin not 1 to n" */
static fault read_pin(struct reader *r, struct job *job)
{
    int64_t last = (int64_t)job->n;
    job->pin = last;
    if (job->kind != EIGEN || !TAKE(r, "pin="))
        return FLOODRAFTER_DONE;
    r->line++;
    fault f = read_list(r, &job->pin, 1, NUMBER_MAX);
    return f == FLOODRAFTER_DONE && (job->pin < 1 || last <= job->pin) ? FLOODRAFTER_PIN : f;
}

static fault read_inverse(struct reader *r, struct job *job)
{
    return KEY(r, "inv=") ? read_list(r, job->inverse, job->n * job->n, ENTRY_MAX) : FLOODRAFTER_SPELLING;
}

static fault read_system_line(struct reader *r, struct job *job, size_t i)
{
    if (job->kind == POLY)
        return KEY(r, "eq=") ? read_equation(r, &job->equations[i], job->n) : FLOODRAFTER_SPELLING;
    size_t count = job->n + (job->kind == LINEAR);
    return KEY(r, "row=") ? read_list(r, job->rows[i], count, ENTRY_MAX) : FLOODRAFTER_SPELLING;
}

#endif
