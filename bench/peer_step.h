/* A step of a job: document 01, "The arithmetic", "One Krawczyk step on box X with inverse C", "The three kinds"; powers as in document 02, P5,
 * the pinned coordinate as in P2.
 * It stands in a header so that the compiler builds it into the run, which is timed: a function shared with peer_step.c takes some 35 instructions more. */
#ifndef PEER_STEP_H
#define PEER_STEP_H

#include <string.h>

#include "peer_job.h"

/* "Down means toward minus infinity, on negative numbers too": the shift of the compilers that build this is an arithmetic one. */
static int64_t floor_marks(int64_t x)
{
    return x >> 16;
}

static int64_t ceil_marks(int64_t x)
{
    return (x + (MARKS - 1)) >> 16;
}

static int64_t least(int64_t a, int64_t b)
{
    return a < b ? a : b;
}

static int64_t greatest(int64_t a, int64_t b)
{
    return a < b ? b : a;
}

static struct interval point(int64_t c)
{
    return (struct interval){c, c};
}

static struct interval add(struct interval a, struct interval b)
{
    return (struct interval){a.lo + b.lo, a.hi + b.hi};
}

static struct interval subtract(struct interval a, struct interval b)
{
    return (struct interval){a.lo - b.hi, a.hi - b.lo};
}

/* The exact product: "the least and the greatest of the four products of ends". */
static struct interval multiply(struct interval a, struct interval b)
{
    int64_t p = a.lo * b.lo;
    int64_t q = a.lo * b.hi;
    int64_t r = a.hi * b.lo;
    int64_t s = a.hi * b.hi;
    return (struct interval){least(least(p, q), least(r, s)), greatest(greatest(p, q), greatest(r, s))};
}

static struct interval round_outward(struct interval a)
{
    return (struct interval){floor_marks(a.lo), ceil_marks(a.hi)};
}

/* "the true range of the square (low end 0 when the box holds 0)", "rounded outward" */
static struct interval square(struct interval x)
{
    int64_t p = x.lo * x.lo;
    int64_t q = x.hi * x.hi;
    bool holds_zero = x.lo <= 0 && 0 <= x.hi;
    return round_outward((struct interval){holds_zero ? 0 : least(p, q), greatest(p, q)});
}

/* "exponent 3 is that square times the unknown, each rounded outward"; e is 1 to 3 */
static struct interval power(struct interval x, uint8_t e)
{
    if (e == 1)
        return x;
    struct interval a = square(x);
    return e == 2 ? a : round_outward(multiply(a, x));
}

/* "multiply the coefficient by the powers in unknown order", "rounding after each product" */
static struct interval term_over(const struct term *t, const struct interval *x, size_t n)
{
    struct interval a = point(t->coefficient);
    for (size_t k = 0; k < n; k++) {
        if (t->exponents[k] > 0)
            a = round_outward(multiply(a, power(x[k], t->exponents[k])));
    }
    return a;
}

static struct interval equation_over(const struct equation *q, const struct interval *x, size_t n)
{
    struct interval sum = point(0);
    for (size_t i = 0; i < q->count; i++)
        sum = add(sum, term_over(&q->terms[i], x, n));
    return sum;
}

/* "over the terms with exponent e of at least 1, the term with that exponent lowered by one, its ends multiplied by e, all summed" */
static struct interval slope_over(const struct equation *q, size_t j, const struct interval *x, size_t n)
{
    struct interval sum = point(0);
    for (size_t i = 0; i < q->count; i++) {
        struct term lowered = q->terms[i];
        uint8_t e = lowered.exponents[j];
        if (e == 0)
            continue;
        lowered.exponents[j]--;
        struct interval a = term_over(&lowered, x, n);
        sum = add(sum, (struct interval){e * a.lo, e * a.hi});
    }
    return sum;
}

/* The exact scalar product of a row of C and n intervals that stand `stride` apart: a vector, or a column of a matrix. */
static struct interval row_product(const int64_t *row, const struct interval *v, size_t stride, size_t n)
{
    struct interval sum = point(0);
    for (size_t k = 0; k < n; k++)
        sum = add(sum, multiply(point(row[k]), v[k * stride]));
    return sum;
}

/* Row i of B = I - C S: "I has 65,536 squared on its diagonal before rounding" */
static void row_of_b(const int64_t *row, const struct interval *slopes, size_t n, size_t i, struct interval *b)
{
    for (size_t j = 0; j < n; j++) {
        int64_t unit = i == j ? (int64_t)MARKS * MARKS : 0;
        b[j] = round_outward(subtract(point(unit), row_product(row, &slopes[j], UNKNOWNS_MAX, n)));
    }
}

/* The image K = m - D + E of the box x. */
static void image(const struct job *job, const struct interval *x, struct interval *k)
{
    size_t n = job->n;
    struct interval m[UNKNOWNS_MAX], f[UNKNOWNS_MAX], z[UNKNOWNS_MAX];
    struct interval slopes[UNKNOWNS_MAX * UNKNOWNS_MAX];
    for (size_t i = 0; i < n; i++) {
        m[i] = point((x[i].lo + x[i].hi) >> 1);
        z[i] = subtract(x[i], m[i]);
    }
    for (size_t i = 0; i < n; i++) {
        f[i] = equation_over(&job->equations[i], m, n);
        for (size_t j = 0; j < n; j++)
            slopes[i * UNKNOWNS_MAX + j] = slope_over(&job->equations[i], j, x, n);
    }
    for (size_t i = 0; i < n; i++) {
        const int64_t *row = &job->inverse[i * n];
        struct interval b[UNKNOWNS_MAX];
        row_of_b(row, slopes, n, i, b);
        struct interval d = round_outward(row_product(row, f, 1, n));
        struct interval e = point(0);
        for (size_t j = 0; j < n; j++)
            e = add(e, multiply(b[j], z[j]));
        k[i] = add(subtract(m[i], d), round_outward(e));
    }
}

/* What the image k decides on the box x, in document 01's order: true with the verdict, or false with x cut. */
static bool decide(struct interval *x, const struct interval *k, size_t n, enum verdict *verdict)
{
    bool meets = true, inside = true, same = true;
    for (size_t i = 0; i < n; i++) {
        meets = meets && k[i].lo <= x[i].hi && x[i].lo <= k[i].hi;
        inside = inside && x[i].lo < k[i].lo && k[i].hi < x[i].hi;
        same = same && k[i].lo <= x[i].lo && x[i].hi <= k[i].hi;
    }
    *verdict = !meets ? NONE : inside ? UNIQUE : STALLED;
    if (!meets || same)
        return true;
    /* Where k lies inside x, its cut with x is k itself. */
    for (size_t i = 0; i < n; i++)
        x[i] = (struct interval){greatest(x[i].lo, k[i].lo), least(x[i].hi, k[i].hi)};
    return inside;
}

/* "Linear: equation i is the sum of a(i,j) x(j), minus b(i)." */
static void build_linear(struct job *job, size_t i)
{
    struct equation *q = &job->equations[i];
    q->count = job->n + 1;
    memset(q->terms, 0, q->count * sizeof q->terms[0]);
    for (size_t j = 0; j < job->n; j++) {
        q->terms[j].coefficient = job->rows[i][j];
        q->terms[j].exponents[j] = 1;
    }
    q->terms[job->n].coefficient = -job->rows[i][job->n];
}

/* "Equation i is the sum of a(i,j) x(j) over j < n, plus a(i,n), minus L x(i), where x(n) is 1", with another
 * coordinate for n: "coordinate pin is 1 and the eigenvalue takes its place as that unknown". */
static void build_eigen(struct job *job, size_t i)
{
    struct equation *q = &job->equations[i];
    size_t pinned = (size_t)job->pin - 1;
    q->count = job->n + 1;
    memset(q->terms, 0, q->count * sizeof q->terms[0]);
    for (size_t j = 0; j < job->n; j++) {
        q->terms[j].coefficient = job->rows[i][j];
        q->terms[j].exponents[j] = j != pinned;
    }
    struct term *product = &q->terms[job->n];
    product->coefficient = -MARKS;
    product->exponents[pinned] = 1;
    if (i != pinned)
        product->exponents[i] = 1;
}

static void build_equation(struct job *job, size_t i)
{
    if (job->kind == LINEAR)
        build_linear(job, i);
    else if (job->kind == EIGEN)
        build_eigen(job, i);
}

#endif
