#include "expect.h"

#include <stdio.h>
#include <string.h>

#include "printed.h"

static unsigned long failed;

void expect(bool holds, const struct asked *r, const char *what)
{
    if (holds)
        return;
    failed++;
    fprintf(stderr, "request %lu (%s): %s\n", r->before + 1, r->request.word, what);
}

unsigned long failures(void)
{
    return failed;
}

bool same(struct bytes b, const void *at, size_t len)
{
    return b.len == len && memcmp(b.at, at, len) == 0;
}

static bool are_all(const uint8_t *from, size_t len, uint8_t least, uint8_t most)
{
    for (size_t i = 0; i < len; i++)
        if (from[i] < least || most < from[i])
            return false;
    return true;
}

bool is_old(const uint8_t *from, size_t len)
{
    return are_all(from, len, OLD, OLD);
}

bool is_zero(const uint8_t *from, size_t len)
{
    return are_all(from, len, 0, 0);
}

bool is_plain(const uint8_t *from, size_t len)
{
    return are_all(from, len, ' ', '~');
}

void expect_told(const struct asked *r, uint64_t fault, uint64_t line)
{
    struct printed told = {.len = 0};
    print_count(&told, "fault", fault);
    print_count(&told, "line", line);
    expect(same(r->answer, told.text, told.len), r, "another fault or line");
}

void expect_zero_past(const struct asked *r, size_t n, floodrafter_box b)
{
    for (size_t i = n; i < FLOODRAFTER_N; i++)
        expect(b.lo[i] == 0 && b.hi[i] == 0, r, "a place past n, or beside a fault, is not zero");
}
