#include "rooms.h"

#include <string.h>

#include "printed.h"

/* docs/ROOMS.md, "The form of the table". */
enum { FOUR = 4, JOB_AT = FOUR + FLOODRAFTER_READING_MAX, SLOT = 2304 };
_Static_assert(FLOODRAFTER_TABLE == FOUR + FLOODRAFTER_ROOMS * SLOT, "a number and the slots");

static bool is_call(const struct request *r, const char *word)
{
    return strcmp(r->word, word) == 0;
}

struct room_answer call_room(const struct request *r, uint8_t *table, size_t table_len, uint8_t *out, size_t out_len)
{
    floodrafter_answer a;
    if (is_call(r, "open")) {
        floodrafter_opened o = floodrafter_room_open(table, table_len, r->text.at, r->text.len);
        return (struct room_answer){.fault = o.fault, .line = o.line, .slot = o.slot, .visit = o.visit};
    }
    if (is_call(r, "clear"))
        a = floodrafter_room_clear(table, table_len);
    else if (is_call(r, "step"))
        a = floodrafter_room_step(table, table_len, r->slot, r->visit, out, out_len);
    else if (is_call(r, "reading"))
        a = floodrafter_room_reading(table, table_len, r->slot, r->visit, out, out_len);
    else if (is_call(r, "close"))
        a = floodrafter_room_close(table, table_len, r->slot, r->visit);
    else
        broken("there is no such call on a table");
    return (struct room_answer){.fault = a.fault, .line = a.line, .len = a.len};
}

static uint64_t number_at(const uint8_t *from)
{
    return from[0] | (uint64_t)from[1] << 8 | (uint64_t)from[2] << 16 | (uint64_t)from[3] << 24;
}

static bool same_lent(const struct lent *a, const struct lent *b)
{
    return memcmp(a, b, sizeof *a) == 0;
}

/* A refusal has one sentence: the call's own or, of a job text, that of its fault. */
static void expect_told_why(const struct asked *r, uint64_t fault)
{
    uint8_t out[FLOODRAFTER_SENTENCE_MAX];
    struct bytes text = r->request.text;
    bool of_call = floodrafter_room_explain(fault, out, sizeof out) > 0;
    bool of_job = is_call(&r->request, "open") && floodrafter_explain_job(text.at, text.len, out, sizeof out) > 0;
    expect(of_call != of_job, r, "a refusal has no sentence, or two");
}

/* "No refusal changes the table." */
static void expect_refused(const struct asked *r, struct room_answer a, const struct lent *before,
                           const struct lent *after, const uint8_t *out)
{
    expect_told(r, a.fault, a.line);
    expect(a.slot == 0 && a.visit == 0 && a.len == 0, r, "a slot, a visit or a length beside a fault");
    expect(same_lent(before, after), r, "a refusal changed the table");
    expect(is_old(out, ROOM), r, "a fault wrote");
    expect_told_why(r, a.fault);
}

static void expect_answered(const struct asked *r, struct room_answer a, const uint8_t *out)
{
    struct printed p = {.len = 0};
    expect(a.line == 0, r, "a line without a fault");
    if (is_call(&r->request, "open")) {
        print_count(&p, "slot", a.slot);
        print_count(&p, "visit", a.visit);
        expect(same(r->answer, p.text, p.len), r, "another slot or visit");
    } else {
        expect(same(r->answer, out, a.len), r, "another reading");
    }
    expect(a.len <= ROOM && is_old(out + a.len, ROOM - a.len), r, "bytes beyond the reading");
}

/* The slot of a call: what it was and is, and how the table around it is left. */
static void expect_slot(const struct asked *r, struct room_answer a, const struct lent *before,
                        const struct lent *after, const uint8_t *out)
{
    size_t slot = is_call(&r->request, "open") ? a.slot : r->request.slot;
    if (FLOODRAFTER_ROOMS <= slot) {
        expect(false, r, "there is no such slot");
        return;
    }
    size_t at = FOUR + SLOT * slot, end = at + SLOT;
    const uint8_t *was = before->table + at, *is = after->table + at;
    bool head = memcmp(before, after, FOUR) == 0;
    expect(memcmp(before->table + FOUR, after->table + FOUR, at - FOUR) == 0, r, "a lower slot changed");
    expect(memcmp(before->table + end, after->table + end, FLOODRAFTER_TABLE - end) == 0, r, "a higher slot changed");
    if (is_call(&r->request, "open")) {
        expect(number_at(before->table) + 1 == a.visit && number_at(after->table) == a.visit, r, "another last visit");
        expect(same(r->request.text, is + JOB_AT + FOUR, number_at(is + JOB_AT)), r, "another job text in the slot");
    } else if (is_call(&r->request, "step")) {
        expect(head && memcmp(was + JOB_AT, is + JOB_AT, SLOT - JOB_AT) == 0, r, "a step changed more than a reading");
        expect(number_at(is) == a.len && memcmp(is + FOUR, out, a.len) == 0, r, "another reading in the slot");
    } else {
        expect(head && is_zero(is, SLOT), r, "a closing left bytes of the slot, or changed others");
    }
}

static void expect_left(const struct asked *r, struct room_answer a, const struct lent *before,
                        const struct lent *after, const uint8_t *out)
{
    if (is_call(&r->request, "clear"))
        expect(is_zero(after->table, sizeof after->table), r, "a clearing left bytes of the table");
    else if (is_call(&r->request, "reading"))
        expect(same_lent(before, after), r, "a reading changed the table");
    else
        expect_slot(r, a, before, after, out);
}

/* The same call on the table as it was, with a buffer of the reading's own length and with one byte less. */
static void expect_shortest(const struct asked *r, size_t len, const struct lent *before, const struct lent *after,
                            const uint8_t *out)
{
    static struct lent again;
    uint8_t exact[ROOM];
    again = *before;
    memset(exact, OLD, sizeof exact);
    call_room(&r->request, again.table, sizeof again.table, exact, len);
    expect(memcmp(out, exact, sizeof exact) == 0, r, "a buffer of the reading's own length");
    expect(same_lent(&again, after), r, "a buffer of the reading's own length leaves another table");
    again = *before;
    memset(exact, OLD, sizeof exact);
    struct room_answer a = call_room(&r->request, again.table, sizeof again.table, exact, len - 1);
    expect(a.fault == FLOODRAFTER_SHORT_BUFFER && a.line == 0 && a.len == 0, r, "a short buffer is fault 7, line 0");
    expect(is_old(exact, sizeof exact), r, "a short buffer was written");
    expect(same_lent(&again, before), r, "a short buffer changed the table");
}

void ask_room(const struct asked *r)
{
    /* zeros are a table without visits */
    static struct lent kept, before;
    uint8_t out[ROOM];
    size_t room = is_call(&r->request, "reading") ? r->request.room : sizeof out;
    memset(kept.behind, OLD, sizeof kept.behind);
    memset(out, OLD, sizeof out);
    before = kept;
    struct room_answer a = call_room(&r->request, kept.table, sizeof kept.table, out, room);
    expect(is_old(kept.behind, sizeof kept.behind), r, "bytes behind the table");
    if (a.fault != FLOODRAFTER_DONE) {
        expect_refused(r, a, &before, &kept, out);
        return;
    }
    expect_answered(r, a, out);
    expect_left(r, a, &before, &kept, out);
    if (a.len > 0)
        expect_shortest(r, a.len, &before, &kept, out);
}
