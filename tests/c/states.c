#include "states.h"

#include <string.h>

static const char poly[] = "job=41\nkind=poly\nn=1\nlo=65536\nhi=131072\ninv=21845\nsteps=8\neq=65536:2,-131072:0\n";
static const char linear[] = "job=8\nkind=linear\nn=1\nlo=-2\nhi=3\ninv=45\nsteps=6\nrow=-12,34\n";
static const char eigen[] = "job=7\nkind=eigen\nn=2\npin=1\nlo=-1,2\nhi=3,45\ninv=6,-7,8,9\nsteps=1\n"
                            "row=2,-3\nrow=45,6\n";
/* bad from its first line on */
static const char slip[] = "job=041\nkind=poly\nn=";

/* A number of the state is set by its place. Only the equations have gaps. */
enum { NUMBER = sizeof(uint64_t), LIST = FLOODRAFTER_N * NUMBER, MATRIX = FLOODRAFTER_N * LIST };
_Static_assert(sizeof(size_t) == NUMBER && sizeof(int64_t) == NUMBER, "a number has 64 bits");
_Static_assert(offsetof(floodrafter_parts, read.eqs) == 10 * NUMBER + 2 * LIST + MATRIX, "gaps");
_Static_assert(offsetof(floodrafter_parts, bytes) == offsetof(floodrafter_parts, read.rows) + MATRIX + LIST, "gaps");
_Static_assert(sizeof(floodrafter_parts) == offsetof(floodrafter_parts, bytes) + FLOODRAFTER_TEXT_MAX, "gaps");

static floodrafter_parts with(floodrafter_parts p, size_t at, uint64_t value)
{
    memcpy((uint8_t *)&p + at, &value, sizeof value);
    return p;
}

static bool same_terms(const floodrafter_equation *a, const floodrafter_equation *b)
{
    for (size_t k = 0; k < FLOODRAFTER_TERMS_MAX; k++) {
        const floodrafter_term *t = &a->terms[k], *u = &b->terms[k];
        if (t->coef != u->coef || memcmp(t->exps, u->exps, sizeof t->exps) != 0)
            return false;
    }
    return a->count == b->count;
}

/* Byte for byte, save the gap that a term has behind its exponents. */
static bool same_state(const floodrafter_parts *a, const floodrafter_parts *b)
{
    const size_t from = offsetof(floodrafter_parts, read.rows);
    for (size_t i = 0; i < FLOODRAFTER_N; i++)
        if (!same_terms(&a->read.eqs[i], &b->read.eqs[i]))
            return false;
    return memcmp(a, b, offsetof(floodrafter_parts, read.eqs)) == 0 &&
           memcmp((const uint8_t *)a + from, (const uint8_t *)b + from, sizeof *a - from) == 0;
}

static floodrafter_parts after(const void *text, size_t len)
{
    return floodrafter_take(floodrafter_begin(), text, len).parts;
}

static bool is(floodrafter_answer a, uint64_t fault, uint64_t line)
{
    return a.fault == fault && a.line == line;
}

/* A part of this length leaves the state as it was. */
static bool unmoved(floodrafter_parts p, size_t part_len, uint64_t fault)
{
    floodrafter_taken t = floodrafter_take(p, (const uint8_t *)poly, part_len);
    return t.fault == fault && t.line == 0 && same_state(&t.parts, &p);
}

/* The two that write answer by this fault, and write nowhere. */
static bool unwritten(floodrafter_parts p, uint64_t fault, uint64_t line)
{
    uint8_t out[ROOM];
    memset(out, OLD, sizeof out);
    floodrafter_answer a = floodrafter_end_job(p, out, sizeof out), b = floodrafter_end_solve(p, out, sizeof out);
    return is(a, fault, line) && is(b, fault, line) && a.len == 0 && b.len == 0 && is_old(out, sizeof out);
}

/* "4, line 0", from every call, "and hands the state back as it was" */
static void expect_refused(const struct asked *r, floodrafter_parts p)
{
    floodrafter_answer c = floodrafter_end_check(p);
    expect(unmoved(p, 0, FLOODRAFTER_BEYOND), r, "a state beyond a limit takes an empty part");
    expect(unmoved(p, strlen(poly), FLOODRAFTER_BEYOND), r, "a state beyond a limit takes a part");
    expect(is(c, FLOODRAFTER_BEYOND, 0) && c.len == 0, r, "a state beyond a limit is checked");
    expect(unwritten(p, FLOODRAFTER_BEYOND, 0), r, "a state beyond a limit is written");
}

/* No call refuses the state, nor the one that it becomes by a part. */
static void expect_accepted(const struct asked *r, floodrafter_parts p)
{
    uint8_t out[ROOM];
    floodrafter_parts next = floodrafter_take(p, (const uint8_t *)poly, strlen(poly)).parts;
    expect(unmoved(p, 0, FLOODRAFTER_DONE), r, "a state at a limit is refused, or an empty part moves it");
    expect(unmoved(next, 0, FLOODRAFTER_DONE), r, "a state at a limit becomes one that is refused");
    expect(!is(floodrafter_end_check(p), FLOODRAFTER_BEYOND, 0), r, "a state at a limit is not checked");
    expect(!is(floodrafter_end_job(p, out, sizeof out), FLOODRAFTER_BEYOND, 0), r, "a state at a limit is not written");
    expect(!is(floodrafter_end_solve(p, out, sizeof out), FLOODRAFTER_BEYOND, 0), r, "a state at a limit is not run");
}

/* A place of the state, and what it is told by. */
struct place {
    char word[8];
    size_t at;
};

#define STATE(member) offsetof(floodrafter_parts, member)
#define READ(member) STATE(read.member)

static void expect_limit(const struct asked *r, floodrafter_parts p, struct place place, uint64_t most)
{
    struct asked told = *r;
    memcpy(told.request.word, place.word, sizeof place.word);
    expect_accepted(&told, with(p, place.at, most));
    expect_refused(&told, with(p, place.at, most + 1));
    expect_refused(&told, with(p, place.at, UINT64_MAX));
}

/* docs/C.md, "A text that arrives in parts", lists the limits. */
static void expect_limits(const struct asked *r, floodrafter_parts p)
{
    const struct place held = {"held", STATE(held)}, size = {"size", STATE(size)};
    expect_accepted(r, p);
    expect_limit(r, p, size, FLOODRAFTER_TEXT_MAX + 1);
    expect_limit(r, p, held, p.size < FLOODRAFTER_TEXT_MAX ? p.size : FLOODRAFTER_TEXT_MAX);
    expect_limit(r, p, (struct place){"fault", READ(fault)}, FLOODRAFTER_PIN);
    expect_limit(r, p, (struct place){"line", READ(line)}, 9 + FLOODRAFTER_N);
    expect_limit(r, p, (struct place){"next", READ(next)}, 8 + FLOODRAFTER_N);
    expect_limit(r, p, (struct place){"kind", READ(kind)}, 2);
    expect_limit(r, p, (struct place){"n", READ(n)}, FLOODRAFTER_N);
    if (p.held > 0)
        expect_refused(r, with(p, size.at, p.held - 1));
}

/* A whole text's state with another value in one place: what a job of such values is answered by. */
struct value {
    const char *text;
    size_t at;
    uint64_t value;
    uint64_t fault, line;
};

/* The smallest number, where it is handed over as one without a sign. */
static const uint64_t least = UINT64_C(1) << 63;

static void expect_values(const struct asked *r)
{
    const struct value values[] = {
        {poly, READ(number), 1000000000, FLOODRAFTER_BEYOND, 1},
        {poly, READ(number), UINT64_MAX, FLOODRAFTER_BEYOND, 1},
        {poly, READ(n), 0, FLOODRAFTER_UNKNOWNS, 3},
        {poly, READ(lo[0]), least, FLOODRAFTER_BEYOND, 4},
        {poly, READ(hi[0]), 262145, FLOODRAFTER_BEYOND, 5},
        {poly, READ(hi[0]), 65535, FLOODRAFTER_CROSSED, 5},
        {poly, READ(inv[0].at[0]), least, FLOODRAFTER_BEYOND, 6},
        {poly, READ(steps), 1001, FLOODRAFTER_STEPS, 7},
        {poly, READ(steps), UINT64_MAX, FLOODRAFTER_STEPS, 7},
        {poly, READ(eqs[0].count), FLOODRAFTER_TERMS_MAX + 1, FLOODRAFTER_TERMS, 8},
        {poly, READ(eqs[0].count), UINT64_MAX, FLOODRAFTER_TERMS, 8},
        {poly, READ(eqs[0].terms[0].coef), least, FLOODRAFTER_BEYOND, 8},
        {poly, READ(eqs[0].terms[0].coef), 0, FLOODRAFTER_TERMS, 8},
        {poly, READ(eqs[0].terms[0].exps), UINT64_MAX, FLOODRAFTER_TERMS, 8},
        {linear, READ(rows[0].at[0]), 4194305, FLOODRAFTER_BEYOND, 8},
        {linear, READ(right[0]), least, FLOODRAFTER_BEYOND, 8},
        {eigen, READ(pin), 0, FLOODRAFTER_PIN, 4},
        {eigen, READ(pin), 3, FLOODRAFTER_PIN, 4},
        {eigen, READ(pin), UINT64_MAX, FLOODRAFTER_PIN, 4},
        {eigen, READ(rows[1].at[1]), least, FLOODRAFTER_BEYOND, 10},
    };
    for (size_t k = 0; k < sizeof values / sizeof values[0]; k++) {
        const struct value *v = &values[k];
        floodrafter_parts p = with(after(v->text, strlen(v->text)), v->at, v->value);
        expect(unmoved(p, 0, FLOODRAFTER_DONE), r, "a value is refused as a limit is");
        expect(unwritten(p, v->fault, v->line), r, "a value is taken, or has another fault or line");
    }
}

/* "places past n play no part", and of a pin "other kinds ignore it" */
static void expect_unread(const struct asked *r)
{
    static const size_t at[] = {READ(pin), READ(lo[1]), READ(hi[1]), READ(inv[0].at[1]), READ(inv[1].at[0]),
                                READ(eqs[0].terms[2].coef), READ(eqs[1].count), READ(rows[0].at[0]), READ(right[0])};
    const size_t len = strlen(poly);
    floodrafter_parts p = after(poly, len);
    uint8_t out[ROOM];
    for (size_t k = 0; k < sizeof at / sizeof at[0]; k++)
        p = with(p, at[k], least);
    floodrafter_answer a = floodrafter_end_job(p, out, sizeof out);
    expect(is(a, FLOODRAFTER_DONE, 0) && same((struct bytes){out, a.len}, poly, len), r, "a dead place is read");
}

void expect_states(const struct asked *r)
{
    static const uint8_t longer[FLOODRAFTER_TEXT_MAX + 1];
    const floodrafter_parts begun = floodrafter_begin();
    expect(is(floodrafter_end_check(begun), FLOODRAFTER_SPELLING, 1), r, "no part at all is not the empty text");
    expect(unwritten(begun, FLOODRAFTER_SPELLING, 1), r, "no part at all is written");
    expect_limits(r, begun);
    expect_limits(r, after(poly, strlen(poly) / 2));
    expect_limits(r, after(poly, strlen(poly)));
    expect_limits(r, after(linear, strlen(linear)));
    expect_limits(r, after(eigen, strlen(eigen)));
    expect_limits(r, after(slip, strlen(slip)));
    expect_limits(r, after(longer, sizeof longer - 1));
    expect_limits(r, after(longer, sizeof longer));
    expect_values(r);
    expect_unread(r);
}
