#include "jobs.h"

#include <stdarg.h>
#include <stdio.h>
#include <stdlib.h>
#include <string.h>

/* Every job has a zero where all unknowns are 1, in marks: there a term is worth its coefficient. */
static const long one = 65536;

const struct sort sorts[] = {
    {"poly", 1, 3, 4, 0},   {"poly", 2, 2, 6, 0},   {"poly", 4, 2, 7, 0},   {"poly", 4, 3, 16, 0},
    {"linear", 1, 0, 0, 0}, {"linear", 2, 0, 0, 0}, {"linear", 4, 0, 0, 0}, {"eigen", 1, 0, 0, 0},
    {"eigen", 2, 0, 0, 0},  {"eigen", 4, 0, 0, 0},  {"eigen", 4, 0, 0, 1},  {"poly", 6, 3, 16, 0},
};

const size_t sort_count = sizeof sorts / sizeof sorts[0];

static void append(struct text *text, const char *format, ...)
{
    size_t room = sizeof text->bytes - text->len;
    char piece[64];
    va_list values;
    va_start(values, format);
    int len = vsnprintf(piece, sizeof piece, format, values);
    va_end(values);
    if (len < 0 || (size_t)len >= sizeof piece || (size_t)len > room) {
        fputs("bench: a job of the bench is too long\n", stderr);
        exit(1);
    }
    memcpy(text->bytes + text->len, piece, (size_t)len);
    text->len += (size_t)len;
}

/* Ends a list's number by a comma, or the last of `count` by LF. */
static void append_number(struct text *text, long value, int place, int count)
{
    append(text, "%ld%c", value, place + 1 < count ? ',' : '\n');
}

static void append_list(struct text *text, const char *key, long value, int count)
{
    append(text, "%s=", key);
    for (int k = 0; k < count; k++)
        append_number(text, value, k, count);
}

/* Numbers small beside the diagonal, of both signs and of different lengths; from 34 on, which only more than 4 unknowns
 * have, k begins anew, or they would not be small. */
static long small(int i, int k)
{
    long size = 700 + 311 * (k % 34) + 97 * i;
    return (i + k) % 2 == 0 ? size : -size;
}

/* The slope of polynomial and linear equations on the diagonal, up to small numbers. */
static long diagonal(int i)
{
    return 4 * one + 51 * i;
}

/* Exponents are taken as the number that their digits spell. */
static int power_of_ten(int k)
{
    return k == 0 ? 1 : 10 * power_of_ten(k - 1);
}

static int degree_of(int exponents)
{
    return exponents == 0 ? 0 : exponents % 10 + degree_of(exponents / 10);
}

/* The greatest exponents of n unknowns that a degree allows: all of it for the first. */
static int first_exponents(int n, int degree)
{
    return degree * power_of_ten(n - 1);
}

/* Those that come after e, which are not all 0: its last digit over 0 is one less, and the next gets what the degree has left. */
static int next_exponents(int e, int degree)
{
    int unit = 1;
    while (e / unit % 10 == 0)
        unit *= 10;
    e -= unit;
    return unit == 1 ? e : e + (degree - degree_of(e)) * (unit / 10);
}

static int exponents_up_to(const struct sort *sort)
{
    int count = 1;
    for (int e = first_exponents(sort->n, sort->degree); e > 0; e = next_exponents(e, sort->degree))
        count++;
    return count;
}

/* Beside the unknown i by itself and the constant, terms are spread evenly over all that the degree allows, in each equation others. */
static void append_equation(struct text *text, const struct sort *sort, int i)
{
    int others = exponents_up_to(sort) - 2, wanted = sort->terms - 2, seen = 0;
    long sum = 0;
    append(text, "eq=");
    for (int e = first_exponents(sort->n, sort->degree); e > 0; e = next_exponents(e, sort->degree)) {
        long coefficient = diagonal(i);
        if (e != power_of_ten(sort->n - 1 - i)) {
            int before = (seen * wanted + i) / others;
            seen++;
            if ((seen * wanted + i) / others == before)
                continue;
            coefficient = small(i, seen);
        }
        append(text, "%ld:%0*d,", coefficient, sort->n, e);
        sum += coefficient;
    }
    append(text, "%ld:%0*d\n", -sum, sort->n, 0);
}

static void append_linear_row(struct text *text, const struct sort *sort, int i)
{
    long sum = 0;
    append(text, "row=");
    for (int j = 0; j < sort->n; j++) {
        long entry = i == j ? diagonal(i) : small(i, j);
        append_number(text, entry, j, sort->n + 1);
        sum += entry;
    }
    append_number(text, sum, sort->n, sort->n + 1);
}

/* The place of the coordinate that is set to 1, from 0: "Without the line the last is pinned". */
static int pinned_of(const struct sort *sort)
{
    return (sort->pin > 0 ? sort->pin : sort->n) - 1;
}

/* Each row adds up to 1, the eigenvalue of the vector of ones; the others are near -2. */
static long eigen_entry(const struct sort *sort, int i, int j)
{
    if (j != pinned_of(sort))
        return i == j ? -2 * one : small(i, j);
    long rest = one;
    for (int k = 0; k < sort->n; k++)
        rest -= k == j ? 0 : eigen_entry(sort, i, k);
    return rest;
}

static void append_eigen_row(struct text *text, const struct sort *sort, int i)
{
    append(text, "row=");
    for (int j = 0; j < sort->n; j++)
        append_number(text, eigen_entry(sort, i, j), j, sort->n);
}

/* The inverse of the slopes at the zero, up to small numbers, times `scale`: 1/4 on the diagonal; of an eigenpair's
 * slopes, which are -3 there and -1 in the pinned column, -1/3, with 1/3 in that column and -1 where the two meet. */
static long inverse_entry(const struct sort *sort, int i, int j, long scale)
{
    int pinned = pinned_of(sort);
    if (sort->kind[0] != 'e')
        return i == j ? scale / 4 : 0;
    if (i == pinned)
        return j == pinned ? -scale : 0;
    return i == j ? -scale / 3 : j == pinned ? scale / 3 : 0;
}

static void append_inverse(struct text *text, const struct sort *sort, long scale)
{
    int count = sort->n * sort->n;
    append(text, "inv=");
    for (int k = 0; k < count; k++)
        append_number(text, inverse_entry(sort, k / sort->n, k % sort->n, scale), k, count);
}

static long scale_of(enum pace pace)
{
    return pace == SOON ? one : pace == LATE ? one / 128 : one / 1024;
}

void write_job(const struct sort *sort, enum pace pace, int steps, struct text *text)
{
    text->len = 0;
    append(text, "job=%d\nkind=%s\nn=%d\n", 41, sort->kind, sort->n);
    if (sort->pin > 0)
        append(text, "pin=%d\n", sort->pin);
    append_list(text, "lo", pace == SOON ? one - 5003 : one, sort->n);
    append_list(text, "hi", pace == SOON ? one + 4001 : one + one / 2, sort->n);
    append_inverse(text, sort, scale_of(pace));
    append(text, "steps=%d\n", steps);
    for (int i = 0; i < sort->n; i++) {
        if (sort->kind[0] == 'p')
            append_equation(text, sort, i);
        else if (sort->kind[0] == 'l')
            append_linear_row(text, sort, i);
        else
            append_eigen_row(text, sort, i);
    }
}

/* The first `terms` of the terms of degree 3 at most; where there are no more, the last again. */
static void append_longest_equation(struct text *text, int terms)
{
    int e = first_exponents(FLOODRAFTER_N, 3);
    append(text, "eq=");
    for (int k = 0; k < terms; k++) {
        append(text, "-4194304:%0*d%c", FLOODRAFTER_N, e, k + 1 < terms ? ',' : '\n');
        e = e > 0 ? next_exponents(e, 3) : e;
    }
}

void write_longest_job(int extra, struct text *text)
{
    text->len = 0;
    append(text, "job=999999999\nkind=poly\nn=%d\n", FLOODRAFTER_N);
    append_list(text, "lo", -262144, FLOODRAFTER_N);
    append_list(text, "hi", -262144, FLOODRAFTER_N);
    append_list(text, "inv", -4194304, FLOODRAFTER_N * FLOODRAFTER_N);
    append(text, "steps=1000\n");
    for (int i = 1; i <= FLOODRAFTER_N; i++)
        append_longest_equation(text, FLOODRAFTER_TERMS_MAX + (i == FLOODRAFTER_N ? extra : 0));
}
