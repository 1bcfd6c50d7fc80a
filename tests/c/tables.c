#include "tables.h"

#include <stdlib.h>
#include <string.h>

#include "rooms.h"

/* The numbers of a line, each behind a blank but for the first. */
static void read_numbers(const char *line, uint64_t *numbers, size_t count)
{
    for (size_t k = 0; k < count; k++) {
        char *end;
        numbers[k] = strtoull(line, &end, 10);
        if (end == line || *end != (k + 1 < count ? ' ' : '\n'))
            broken("a line on a table has other numbers");
        line = end + 1;
    }
}

/* `base LENGTH`: what the calls up to the next base begin with. */
static void take_base(struct bytes *from, struct lent *base)
{
    uint64_t len;
    read_numbers(cut_line(from) + strlen("base "), &len, 1);
    if (len != sizeof *base)
        broken("a base has another length");
    memcpy(base, cut(from, len).at, len);
}

/* Patches, each `AT LENGTH` and its bytes, are put in. */
static void take_patches(struct bytes *from, uint64_t patches, struct lent *lent)
{
    enum { AT, LENGTH, NUMBERS };
    for (; patches > 0; patches--) {
        uint64_t numbers[NUMBERS];
        read_numbers(cut_line(from), numbers, NUMBERS);
        if (numbers[AT] > sizeof *lent || numbers[LENGTH] > sizeof *lent - numbers[AT])
            broken("a patch lies beyond the base");
        memcpy((uint8_t *)lent + numbers[AT], cut(from, numbers[LENGTH]).at, numbers[LENGTH]);
    }
}

/* `CALL SLOT VISIT ROOM LENT PATCHES LENGTH`: the call, the bytes that it is made on, and how many of them are lent. */
static size_t take_call(struct bytes *from, const struct lent *base, struct request *r, struct lent *lent)
{
    enum { SLOT, VISIT, ROOM_OF_READING, LENT, PATCHES, LENGTH, NUMBERS };
    uint64_t numbers[NUMBERS];
    const char *line = cut_line(from);
    size_t word = strcspn(line, " \n");
    *r = (struct request){.lengths = NULL};
    if (word >= sizeof r->word || line[word] != ' ')
        broken("a line on a table has no call");
    memcpy(r->word, line, word);
    read_numbers(line + word + 1, numbers, NUMBERS);
    if (numbers[ROOM_OF_READING] > ROOM || numbers[LENT] > sizeof *lent)
        broken("more is lent than there is");
    r->slot = numbers[SLOT];
    r->visit = numbers[VISIT];
    r->room = numbers[ROOM_OF_READING];
    *lent = *base;
    take_patches(from, numbers[PATCHES], lent);
    r->text = cut(from, numbers[LENGTH]);
    return numbers[LENT];
}

/* `FAULT LINE SLOT VISIT PATCHES LENGTH`: what is answered, the bytes after the call, and what stands in the buffer. */
static struct room_answer take_answer(struct bytes *from, struct lent *lent, struct bytes *out)
{
    enum { FAULT, LINE, SLOT, VISIT, PATCHES, LENGTH, NUMBERS };
    uint64_t numbers[NUMBERS];
    read_numbers(cut_line(from), numbers, NUMBERS);
    if (numbers[LENGTH] > ROOM)
        broken("a reading is longer than any buffer");
    take_patches(from, numbers[PATCHES], lent);
    *out = cut(from, numbers[LENGTH]);
    return (struct room_answer){numbers[FAULT], numbers[LINE], numbers[SLOT], numbers[VISIT], numbers[LENGTH]};
}

static bool same_answer(struct room_answer a, struct room_answer b)
{
    return a.fault == b.fault && a.line == b.line && a.slot == b.slot && a.visit == b.visit && a.len == b.len;
}

/* Every byte counts, also of those that are not lent. */
static void ask_call(struct asked *r, const struct lent *base, struct bytes *calls, struct bytes *left)
{
    static struct lent lent, wanted;
    uint8_t out[ROOM];
    struct bytes text;
    size_t len = take_call(calls, base, &r->request, &lent);
    wanted = lent;
    struct room_answer answer = take_answer(left, &wanted, &text);
    memset(out, OLD, sizeof out);
    struct room_answer a = call_room(&r->request, (uint8_t *)&lent, len, out, r->request.room);
    expect(same_answer(a, answer), r, "another answer of a table of any bytes");
    expect(memcmp(&lent, &wanted, sizeof lent) == 0, r, "other bytes are left of a table of any bytes, or behind it");
    expect(memcmp(text.at, out, text.len) == 0, r, "another reading of a table of any bytes");
    expect(is_old(out + text.len, ROOM - text.len), r, "bytes beyond the reading of a table of any bytes");
}

unsigned long ask_tables(struct bytes calls, struct bytes left)
{
    static struct lent base;
    struct asked r = {.before = 0};
    while (calls.len > 0) {
        if (calls.len > strlen("base ") && memcmp(calls.at, "base ", strlen("base ")) == 0) {
            take_base(&calls, &base);
        } else {
            ask_call(&r, &base, &calls, &left);
            r.before++;
        }
    }
    if (left.len != 0)
        broken("there are more answers than calls on tables");
    return r.before;
}
