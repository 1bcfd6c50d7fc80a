#include "parts.h"

#include <string.h>

/* Byte by byte a text costs a copy of the state for each of its bytes, so that only each tenth comes so. */
enum { PACKET = 64, TENTH = 10 };

typedef floodrafter_answer ender(floodrafter_parts parts, uint8_t *out, size_t out_len);
typedef floodrafter_answer writer(const uint8_t *text, size_t text_len, uint8_t *out, size_t out_len);

/* How many bytes of a text stand behind its last line feed. */
static size_t unended(struct bytes text)
{
    size_t len = 0;
    while (len < text.len && text.at[text.len - len - 1] != '\n')
        len++;
    return len;
}

/* "It may hold only one line and what is already read." */
static void expect_held(const struct asked *r, const floodrafter_parts *p, struct bytes come)
{
    const size_t most = FLOODRAFTER_TEXT_MAX + 1;
    expect(p->size == (come.len < most ? come.len : most), r, "another count of bytes");
    expect(p->held <= p->size && p->held <= FLOODRAFTER_TEXT_MAX, r, "more is held than came, or than a text has");
    if (p->size == most || p->read.fault != FLOODRAFTER_DONE)
        return;
    size_t len = unended(come);
    expect(p->held == len && memcmp(p->bytes, come.at + come.len - len, len) == 0, r, "another line is held");
}

/* "past `held` any bytes": line feeds are those that a reader could fall for. */
static void litter(floodrafter_parts *p)
{
    memset(p->bytes + p->held, '\n', sizeof p->bytes - p->held);
}

/* The state after all parts, littered after every other one. */
static floodrafter_parts take_all(const struct asked *r, struct cuts cuts)
{
    struct bytes come = {cuts.rest.at, 0}, part;
    floodrafter_parts p = floodrafter_begin();
    for (bool other = false; next_part(&cuts, &part); other = !other) {
        floodrafter_taken t = floodrafter_take(p, part.at, part.len);
        expect(t.fault == FLOODRAFTER_DONE && t.line == 0, r, "a state from the library is refused");
        p = t.parts;
        come.len += part.len;
        expect_held(r, &p, come);
        if (other)
            litter(&p);
    }
    return p;
}

static void expect_short(const struct asked *r, floodrafter_parts p, ender *end, size_t room)
{
    uint8_t out[ROOM];
    memset(out, OLD, sizeof out);
    floodrafter_answer a = end(p, out, room);
    expect(a.fault == FLOODRAFTER_SHORT_BUFFER && a.line == 0 && a.len == 0, r, "a short buffer is fault 7, in parts");
    expect(is_old(out, sizeof out), r, "a short buffer was written, in parts");
}

/* The answer at the end, with every byte of its buffer, is that to the whole text. */
static void expect_written(const struct asked *r, floodrafter_parts p, ender *end, writer *write)
{
    uint8_t out[ROOM], whole[ROOM];
    struct bytes text = r->request.text;
    memset(out, OLD, sizeof out);
    memset(whole, OLD, sizeof whole);
    floodrafter_answer a = end(p, out, sizeof out), w = write(text.at, text.len, whole, sizeof whole);
    expect(a.fault == w.fault && a.line == w.line && a.len == w.len, r, "another answer in parts");
    expect(memcmp(out, whole, sizeof out) == 0, r, "other bytes in parts");
    if (w.fault == FLOODRAFTER_DONE)
        expect_short(r, p, end, w.len - 1);
}

static void expect_whole(const struct asked *r, floodrafter_parts p)
{
    struct bytes text = r->request.text;
    floodrafter_answer a = floodrafter_end_check(p), w = floodrafter_check_job(text.at, text.len);
    expect(a.fault == w.fault && a.line == w.line && a.len == 0, r, "another fault or line in parts");
    expect_written(r, p, floodrafter_end_job, floodrafter_rewrite_job);
    expect_written(r, p, floodrafter_end_solve, floodrafter_solve);
}

void ask_parts(const struct asked *r)
{
    expect_whole(r, take_all(r, cuts_of(&r->request)));
}

void ask_in_parts(const struct asked *r)
{
    struct bytes text = r->request.text;
    expect_whole(r, take_all(r, (struct cuts){.rest = text, .after = PACKET}));
    if (r->before % TENTH == 0)
        expect_whole(r, take_all(r, (struct cuts){.rest = text, .after = 1}));
}
