#include "printed.h"

#include <inttypes.h>
#include <stdio.h>
#include <string.h>

void print_word(struct printed *p, const char *key, const char *word)
{
    p->len += (size_t)snprintf(p->text + p->len, PRINTED - p->len, "%s=%s\n", key, word);
}

void print_count(struct printed *p, const char *key, uint64_t count)
{
    p->len += (size_t)snprintf(p->text + p->len, PRINTED - p->len, "%s=%" PRIu64 "\n", key, count);
}

void print_list(struct printed *p, const char *key, const int64_t *ends, size_t n)
{
    p->len += (size_t)snprintf(p->text + p->len, PRINTED - p->len, "%s=", key);
    for (size_t i = 0; i < n && i < FLOODRAFTER_N; i++) {
        char behind = i + 1 < n ? ',' : '\n';
        p->len += (size_t)snprintf(p->text + p->len, PRINTED - p->len, "%" PRId64 "%c", ends[i], behind);
    }
}

bool begins(struct bytes text, const char *with, size_t len)
{
    return text.len >= len && memcmp(text.at, with, len) == 0;
}

struct bytes from_line(struct bytes text, const char *key)
{
    while (text.len > 0 && !begins(text, key, strlen(key))) {
        const uint8_t *end = memchr(text.at, '\n', text.len);
        size_t line = end == NULL ? text.len : (size_t)(end + 1 - text.at);
        text = (struct bytes){text.at + line, text.len - line};
    }
    return text;
}
