#include "lists.h"

#include <stdlib.h>
#include <string.h>

#include "printed.h"

/* The longest list that is lent. The room of a box behind it shows a number written too far. */
enum { LIST_MAX = FLOODRAFTER_LISTED * FLOODRAFTER_BOXES_MAX, NUMBERS = LIST_MAX + FLOODRAFTER_LISTED };

_Static_assert(FLOODRAFTER_BOXES_MAX == 1 << FLOODRAFTER_DEPTH_MAX, "two to the power of the depth");
_Static_assert(FLOODRAFTER_LISTED * sizeof(int64_t) == sizeof(int64_t) + sizeof(floodrafter_box), "a word and a box");

/* A listing, and every number of the list that was lent for it. Two are held to each other byte by byte. */
struct listed {
    floodrafter_listing listing;
    int64_t list[NUMBERS];
};
_Static_assert(sizeof(struct listed) == 2 * sizeof(uint64_t) + 2 * sizeof(size_t) + NUMBERS * sizeof(int64_t), "gaps");

/* What the list holds beforehand: no two numbers are alike, so that one that was only moved shows too. */
static int64_t old_number(size_t at)
{
    return INT64_MIN + (int64_t)at;
}

static bool is_old_from(const struct listed *l, size_t from)
{
    for (size_t at = from; at < NUMBERS; at++)
        if (l->list[at] != old_number(at))
            return false;
    return true;
}

static void halve(struct bytes text, int64_t depth, size_t list_len, struct listed *l)
{
    for (size_t at = 0; at < NUMBERS; at++)
        l->list[at] = old_number(at);
    l->listing = floodrafter_halve(text.at, text.len, depth, l->list, list_len);
}

/* "the list is untouched by any of them" */
static void expect_untouched(const struct asked *r, const struct listed *l)
{
    expect(l->listing.n == 0 && l->listing.boxes == 0, r, "an n or a box beside a fault");
    expect(is_old_from(l, 0), r, "a fault wrote into the list");
}

static void expect_refused(const struct asked *r, const struct listed *l, uint64_t fault)
{
    expect(l->listing.fault == fault && l->listing.line == 0, r, "a depth or a list has another fault or line");
    expect_untouched(r, l);
}

static const int64_t *entry_of(const struct listed *l, size_t box)
{
    return l->list + box * FLOODRAFTER_LISTED;
}

/* The ends stand in an entry as they do in a box. */
static floodrafter_box box_of(const int64_t *entry)
{
    floodrafter_box b;
    memcpy(&b, entry + 1, sizeof b);
    return b;
}

static void print_box(struct printed *p, const int64_t *entry, size_t n)
{
    floodrafter_box b = box_of(entry);
    print_word(p, "box", entry[0] == 1 ? "unique" : entry[0] == 0 ? "open" : "?");
    print_list(p, "lo", b.lo, n);
    print_list(p, "hi", b.hi, n);
}

/* Takes the printed lines off the front of what is left of an answer; false where others stand there. */
static bool take_lines(struct bytes *rest, const struct printed *p)
{
    if (!begins(*rest, p->text, p->len))
        return false;
    *rest = (struct bytes){rest->at + p->len, rest->len - p->len};
    return true;
}

/* The listing as the program prints it, which is longer than what is printed at once. */
static bool is_answer(const struct asked *r, const struct listed *l)
{
    struct bytes rest = r->answer;
    struct printed head = {.len = 0};
    const char *number = (const char *)from_line(r->request.text, "job=").at + strlen("job=");
    print_count(&head, "job", strtoul(number, NULL, 10));
    print_count(&head, "boxes", l->listing.boxes);
    bool alike = take_lines(&rest, &head);
    for (size_t box = 0; alike && box < l->listing.boxes; box++) {
        struct printed lines = {.len = 0};
        print_box(&lines, entry_of(l, box), l->listing.n);
        alike = take_lines(&rest, &lines);
    }
    return alike && rest.len == 0;
}

/* "and past its last listed box always", untouched */
static void expect_listed(const struct asked *r, const struct listed *l)
{
    size_t n = l->listing.n, boxes = l->listing.boxes;
    expect(l->listing.line == 0, r, "a line without a fault");
    expect(n == floodrafter_start(r->request.text.at, r->request.text.len).n, r, "another n than the start has");
    for (size_t box = 0; box < boxes; box++)
        expect_zero_past(r, n, box_of(entry_of(l, box)));
    expect(is_old_from(l, boxes * FLOODRAFTER_LISTED), r, "numbers past the last listed box");
}

/* The shortest list that is enough, and one number less. */
static void expect_shortest(const struct asked *r, const struct listed *l)
{
    static struct listed again;
    size_t enough = (size_t)FLOODRAFTER_LISTED << r->request.depth;
    halve(r->request.text, r->request.depth, enough, &again);
    expect(memcmp(&again, l, sizeof again) == 0, r, "another listing in the shortest list");
    halve(r->request.text, r->request.depth, enough - 1, &again);
    expect_refused(r, &again, FLOODRAFTER_SHORT_BUFFER);
}

void ask_halve(const struct asked *r)
{
    static struct listed l;
    if (r->request.room > FLOODRAFTER_BOXES_MAX) {
        expect(false, r, "no such list is lent");
        return;
    }
    halve(r->request.text, r->request.depth, r->request.room * FLOODRAFTER_LISTED, &l);
    if (l.listing.fault != FLOODRAFTER_DONE) {
        expect_told(r, l.listing.fault, l.listing.line);
        expect_untouched(r, &l);
    } else if (!is_answer(r, &l)) {
        expect(false, r, "another listing");
    } else {
        expect_listed(r, &l);
        expect_shortest(r, &l);
    }
}

void expect_list_limits(const struct asked *r)
{
    /* nothing is decided of its box, which is halved as often as may be */
    static const char job[] = "job=1\nkind=poly\nn=1\nlo=0\nhi=262144\ninv=0\nsteps=0\neq=\n";
    static const int64_t depths[] = {INT64_MIN, -1, FLOODRAFTER_DEPTH_MAX + 1, INT64_MAX};
    static struct listed l;
    const struct bytes text = {(const uint8_t *)job, strlen(job)};
    halve(text, FLOODRAFTER_DEPTH_MAX, LIST_MAX, &l);
    expect(l.listing.boxes == FLOODRAFTER_BOXES_MAX, r, "another count than the most boxes");
    expect(is_old_from(&l, LIST_MAX), r, "numbers past the longest list");
    for (size_t k = 0; k < sizeof depths / sizeof depths[0]; k++) {
        halve(text, depths[k], LIST_MAX, &l);
        expect_refused(r, &l, FLOODRAFTER_STEPS);
        halve(text, depths[k], 0, &l);
        expect_refused(r, &l, FLOODRAFTER_STEPS);
    }
    halve(text, 0, 0, &l);
    expect_refused(r, &l, FLOODRAFTER_SHORT_BUFFER);
    /* what is left of the list is less than a box has */
    halve(text, 1, 3 * FLOODRAFTER_LISTED - 1, &l);
    expect(l.listing.boxes == 2 && is_old_from(&l, 2 * FLOODRAFTER_LISTED), r, "a list that ends within a box");
}
