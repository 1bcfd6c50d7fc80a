#include "visits.h"

#include <string.h>

#include "printed.h"
#include "rooms.h"

enum { STEPS_MAX = 1000 };

/* A table with the request's job in its first room, and in no other. */
static floodrafter_opened open_alone(const struct asked *r, uint8_t *table)
{
    floodrafter_room_clear(table, FLOODRAFTER_TABLE);
    return floodrafter_room_open(table, FLOODRAFTER_TABLE, r->request.text.at, r->request.text.len);
}

void ask_opened(const struct asked *r)
{
    static uint8_t table[FLOODRAFTER_TABLE];
    floodrafter_answer c = floodrafter_check_job(r->request.text.at, r->request.text.len);
    floodrafter_opened o = open_alone(r, table);
    expect(o.fault == c.fault && o.line == c.line, r, "opening has another fault or line");
    expect(o.slot == 0 && o.visit == (c.fault == FLOODRAFTER_DONE), r, "another slot or visit in an empty table");
}

/* Steps until one leaves the reading as it was; its length, or 0 where there is a fault or no such step. */
static size_t step_through(uint8_t *table, uint8_t *reading)
{
    uint8_t out[FLOODRAFTER_READING_MAX];
    size_t len = 0;
    for (int calls = 0; calls <= STEPS_MAX + 1; calls++) {
        floodrafter_answer a = floodrafter_room_step(table, FLOODRAFTER_TABLE, 0, 1, out, sizeof out);
        if (a.fault != FLOODRAFTER_DONE || (a.len == len && memcmp(reading, out, len) == 0))
            return a.len;
        memcpy(reading, out, a.len);
        len = a.len;
    }
    return 0;
}

/* "the answer after them is that of one run", but for the visit: 1, and of a job run alone 0 */
void ask_visit(const struct asked *r)
{
    static uint8_t table[FLOODRAFTER_TABLE];
    uint8_t reading[FLOODRAFTER_READING_MAX];
    if (open_alone(r, table).fault != FLOODRAFTER_DONE)
        return;
    size_t len = step_through(table, reading);
    size_t visit = r->answer.len - from_line(r->answer, "visit=").len + strlen("visit=");
    bool alike = len == r->answer.len && visit < len && reading[visit] == '1';
    if (alike)
        reading[visit] = '0';
    expect(alike && same(r->answer, reading, len), r, "a visit leads elsewhere than the run");
}

/* "Numbers of four bytes have the least byte first." */
static void put_last_visit(uint8_t *table, uint64_t last)
{
    for (size_t i = 0; i < 4; i++)
        table[i] = (uint8_t)(last >> 8 * i);
}

/* The next opening answers so. */
static void expect_next(const struct asked *r, uint8_t *table, floodrafter_opened next)
{
    static const char job[] = "job=1\nkind=poly\nn=1\nlo=0\nhi=0\ninv=0\nsteps=1\neq=\n";
    floodrafter_opened o = floodrafter_room_open(table, FLOODRAFTER_TABLE, (const uint8_t *)job, strlen(job));
    expect(o.fault == next.fault && o.line == 0, r, "the next opening has another fault or line");
    expect(o.slot == next.slot && o.visit == next.visit, r, "the next opening has another slot or visit");
}

/* A table that is cleared has the header's rooms and visits, and not one more. */
static void expect_openings(const struct asked *r, uint8_t *table)
{
    const uint64_t slot = FLOODRAFTER_ROOMS - 1, last = FLOODRAFTER_VISIT_MAX;
    for (uint64_t k = 0; k < FLOODRAFTER_ROOMS; k++)
        expect_next(r, table, (floodrafter_opened){.slot = k, .visit = k + 1});
    expect_next(r, table, (floodrafter_opened){.fault = FLOODRAFTER_FULL});
    floodrafter_answer a = floodrafter_room_close(table, FLOODRAFTER_TABLE, slot, FLOODRAFTER_ROOMS);
    expect(a.fault == FLOODRAFTER_DONE && a.line == 0 && a.len == 0, r, "the last room is not closed");
    put_last_visit(table, last + 1);
    expect_next(r, table, (floodrafter_opened){.fault = FLOODRAFTER_TABLE_BROKEN});
    put_last_visit(table, last);
    expect_next(r, table, (floodrafter_opened){.fault = FLOODRAFTER_VISITS});
    put_last_visit(table, last - 1);
    expect_next(r, table, (floodrafter_opened){.slot = slot, .visit = last});
}

/* A sentence exactly for 7 and 13 to 16, of the same length in any buffer; of a short one only the room is written. */
static void expect_sentence(const struct asked *r, uint64_t fault)
{
    uint8_t out[ROOM], part[ROOM];
    bool told = fault == FLOODRAFTER_SHORT_BUFFER || (FLOODRAFTER_FULL <= fault && fault <= FLOODRAFTER_TABLE_BROKEN);
    memset(out, OLD, sizeof out);
    memset(part, OLD, sizeof part);
    size_t len = floodrafter_room_explain(fault, out, sizeof out);
    expect(told == (len > 0) && len <= FLOODRAFTER_SENTENCE_MAX, r, "a sentence too many, none, or a long one");
    expect(is_plain(out, len) && is_old(out + len, ROOM - len), r, "a sentence that is not plain, or bytes beyond it");
    expect(floodrafter_room_explain(fault, part, len / 2) == len, r, "another length in a short buffer");
    expect(memcmp(part, out, len / 2) == 0, r, "another sentence in a short buffer");
    expect(is_old(part + len / 2, ROOM - len / 2), r, "bytes beyond a short buffer");
}

void expect_room_limits(const struct asked *r)
{
    /* in 8 or in 32 bits two of them are 13 */
    static const uint64_t far[] = {256 + 13, (UINT64_C(1) << 32) + 13, UINT64_MAX};
    static struct lent lent;
    memset(&lent, OLD, sizeof lent);
    floodrafter_answer a = floodrafter_room_clear(lent.table, sizeof lent.table - 1);
    expect(a.fault == FLOODRAFTER_TABLE_BROKEN && a.line == 0 && a.len == 0, r, "too few bytes are cleared");
    expect(is_old(lent.table, sizeof lent.table), r, "too few bytes were written");
    a = floodrafter_room_clear(lent.table, sizeof lent.table);
    expect(a.fault == FLOODRAFTER_DONE && a.line == 0 && a.len == 0, r, "old bytes are not cleared");
    expect(is_zero(lent.table, sizeof lent.table) && is_old(lent.behind, sizeof lent.behind), r, "another clearing");
    expect_openings(r, lent.table);
    for (uint64_t fault = 0; fault < 32; fault++)
        expect_sentence(r, fault);
    for (size_t k = 0; k < sizeof far / sizeof far[0]; k++)
        expect_sentence(r, far[k]);
}
