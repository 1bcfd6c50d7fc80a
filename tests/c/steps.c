#include "steps.h"

#include <stdlib.h>
#include <string.h>

#include "printed.h"

static const char *verdict_word(uint64_t verdict)
{
    static const char *const words[] = {
        [FLOODRAFTER_NONE] = "none", [FLOODRAFTER_UNIQUE] = "unique", [FLOODRAFTER_STALLED] = "stalled", [FLOODRAFTER_NEXT] = "next"};
    return verdict <= FLOODRAFTER_NEXT ? words[verdict] : "?";
}

static void expect_shown(const struct asked *r, floodrafter_shown s)
{
    expect(s.n <= FLOODRAFTER_N, r, "an n over FLOODRAFTER_N");
    expect((s.fault == FLOODRAFTER_DONE) == (s.n > 0), r, "an n beside a fault, or none without one");
    expect(s.fault != FLOODRAFTER_DONE || s.line == 0, r, "a line without a fault");
    expect_zero_past(r, s.n, s.box);
}

/* Two answers are held to each other byte by byte: neither has a gap between its members. */
_Static_assert(sizeof(floodrafter_shown) == 3 * sizeof(uint64_t) + sizeof(floodrafter_box), "gaps");
_Static_assert(sizeof(floodrafter_move) == 3 * sizeof(uint64_t) + sizeof(floodrafter_box), "gaps");

/* The box with such ends in the places past n, which no check would take. */
static floodrafter_box littered(floodrafter_box b, size_t n, int64_t lo, int64_t hi)
{
    for (size_t i = n; i < FLOODRAFTER_N; i++) {
        b.lo[i] = lo;
        b.hi[i] = hi;
    }
    return b;
}

void ask_start(const struct asked *r)
{
    struct bytes text = r->request.text;
    floodrafter_shown s = floodrafter_start(text.at, text.len);
    floodrafter_answer c = floodrafter_check_job(text.at, text.len);
    expect(s.fault == c.fault && s.line == c.line, r, "the start has another fault or line");
    expect_shown(r, s);
    if (s.fault != FLOODRAFTER_DONE)
        return;
    struct printed n = {.len = 0}, box = {.len = 0};
    print_count(&n, "n", s.n);
    print_list(&box, "lo", s.box.lo, s.n);
    print_list(&box, "hi", s.box.hi, s.n);
    expect(begins(from_line(text, "n="), n.text, n.len), r, "another n than stands in the text");
    expect(begins(from_line(text, "lo="), box.text, box.len), r, "another box than stands in the text");
}

static floodrafter_move step_on(const struct asked *r, floodrafter_box x)
{
    floodrafter_shown k = floodrafter_image(r->request.text.at, r->request.text.len, x);
    floodrafter_move m = floodrafter_decide(k.n, x, k.box);
    expect(k.fault == FLOODRAFTER_DONE && m.fault == FLOODRAFTER_DONE, r, "a step of an accepted job has a fault");
    return m;
}

void ask_walk(const struct asked *r)
{
    floodrafter_shown s = floodrafter_start(r->request.text.at, r->request.text.len);
    if (s.fault != FLOODRAFTER_DONE)
        return;
    const char *steps = (const char *)from_line(r->request.text, "steps=").at;
    size_t allowance = strtoul(steps + strlen("steps="), NULL, 10), count = 0;
    floodrafter_move m = {.verdict = FLOODRAFTER_NEXT, .box = s.box};
    for (; m.verdict == FLOODRAFTER_NEXT && count < allowance; count++)
        m = step_on(r, m.box);
    struct printed p = {.len = 0};
    print_word(&p, "verdict", m.verdict == FLOODRAFTER_NEXT ? "spent" : verdict_word(m.verdict));
    print_count(&p, "steps", count);
    print_list(&p, "lo", m.box.lo, s.n);
    print_list(&p, "hi", m.box.hi, s.n);
    expect(same(from_line(r->answer, "verdict="), p.text, p.len), r, "the steps lead elsewhere than the run");
}

static void expect_same_image(const struct asked *r, floodrafter_shown k, floodrafter_box x)
{
    floodrafter_shown again = floodrafter_image(r->request.text.at, r->request.text.len, x);
    expect(memcmp(&k, &again, sizeof k) == 0, r, "the image depends on places past n");
}

void ask_image(const struct asked *r)
{
    struct bytes text = r->request.text;
    floodrafter_shown s = floodrafter_start(text.at, text.len);
    floodrafter_box x = r->request.boxed ? r->request.x : s.box;
    floodrafter_shown k = floodrafter_image(text.at, text.len, x);
    expect_shown(r, k);
    if (k.fault != FLOODRAFTER_DONE) {
        expect_told(r, k.fault, k.line);
    } else {
        struct printed p = {.len = 0};
        print_list(&p, "klo", k.box.lo, k.n);
        print_list(&p, "khi", k.box.hi, k.n);
        expect(same(r->answer, p.text, p.len), r, "another image");
    }
    expect_same_image(r, k, littered(x, s.n, INT64_MIN, INT64_MAX));
    expect_same_image(r, k, littered(x, s.n, INT64_MAX, INT64_MIN));
}

static void expect_same_move(const struct asked *r, floodrafter_move m, floodrafter_box x, floodrafter_box k)
{
    floodrafter_move again = floodrafter_decide(r->request.n, x, k);
    expect(memcmp(&m, &again, sizeof m) == 0, r, "what is decided depends on places past n");
}

void ask_decide(const struct asked *r)
{
    size_t n = r->request.n;
    floodrafter_box x = r->request.x, k = r->request.k;
    floodrafter_move m = floodrafter_decide(n, x, k);
    expect(m.line == 0, r, "a line where there is no text");
    if (m.fault != FLOODRAFTER_DONE) {
        expect_told(r, m.fault, m.line);
        expect(m.verdict == 0, r, "a verdict beside a fault");
        expect_zero_past(r, 0, m.box);
    } else {
        struct printed p = {.len = 0};
        print_word(&p, "verdict", verdict_word(m.verdict));
        print_list(&p, "lo", m.box.lo, n);
        print_list(&p, "hi", m.box.hi, n);
        expect(same(r->answer, p.text, p.len), r, "something else is decided");
        expect_zero_past(r, n, m.box);
    }
    expect_same_move(r, m, littered(x, n, INT64_MIN, INT64_MAX), littered(k, n, INT64_MAX, INT64_MIN));
    expect_same_move(r, m, littered(x, n, INT64_MAX, INT64_MIN), littered(k, n, INT64_MIN, INT64_MAX));
}

void expect_step_limits(const struct asked *r)
{
    const floodrafter_box zero = {{0}, {0}}, widest = littered(zero, 0, INT64_MIN, INT64_MAX);
    const floodrafter_box turned = littered(zero, 0, INT64_MAX, INT64_MIN);
    expect(floodrafter_decide(FLOODRAFTER_N, zero, zero).fault == FLOODRAFTER_DONE, r, "the greatest n is too great");
    expect(floodrafter_decide(FLOODRAFTER_N + 1, zero, zero).fault == FLOODRAFTER_UNKNOWNS, r, "a greater n is taken");
    expect(floodrafter_decide((size_t)UINT32_MAX + 2, zero, zero).fault == FLOODRAFTER_UNKNOWNS, r, "an n that is 1 in 32 bits is taken");
    expect(floodrafter_decide(1, widest, zero).fault == FLOODRAFTER_BEYOND, r, "the widest box is taken");
    expect(floodrafter_decide(1, zero, widest).fault == FLOODRAFTER_BEYOND, r, "the widest image is taken");
    expect(floodrafter_decide(1, turned, turned).fault == FLOODRAFTER_BEYOND, r, "the widest box is taken, crossed");
}
