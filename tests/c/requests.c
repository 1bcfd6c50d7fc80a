#include "requests.h"

#include <stdio.h>
#include <stdlib.h>
#include <string.h>

_Noreturn void broken(const char *what)
{
    fprintf(stderr, "the cases are broken: %s\n", what);
    exit(2);
}

struct bytes whole_file(const char *path)
{
    FILE *file = fopen(path, "rb");
    long len = -1;
    if (file != NULL && fseek(file, 0, SEEK_END) == 0)
        len = ftell(file);
    uint8_t *at = len < 0 ? NULL : malloc((size_t)len + 1);
    if (at == NULL || fseek(file, 0, SEEK_SET) != 0 || fread(at, 1, (size_t)len, file) != (size_t)len)
        broken(path);
    fclose(file);
    /* so that a number at the end is read within the file */
    at[len] = 0;
    return (struct bytes){at, (size_t)len};
}

struct bytes cut(struct bytes *from, size_t len)
{
    struct bytes piece = {from->at, len};
    if (len > from->len)
        broken("they end too early");
    from->at += len;
    from->len -= len;
    return piece;
}

const char *cut_line(struct bytes *from)
{
    const uint8_t *end = memchr(from->at, '\n', from->len);
    if (end == NULL)
        broken("a line has no end");
    return (const char *)cut(from, (size_t)(end - from->at) + 1).at;
}

/* How many words the sorts of lines have; where two have as many, the operation tells which. */
enum {
    BARE = 2,
    WITH_LENGTHS = 3,
    WITH_BOX = 4,
    WITH_DEPTH = 4,
    WITH_VISIT = 4,
    WITH_VISIT_AND_ROOM = 5,
    WITH_BOX_AND_IMAGE = 7,
    WORDS_MAX = WITH_BOX_AND_IMAGE
};

/* Where the words of a line begin. */
struct words {
    const char *at[WORDS_MAX];
    size_t count;
};

static struct words words_of(const char *line)
{
    struct words w = {.count = 0};
    do {
        if (w.count == WORDS_MAX)
            broken("a request has too many words");
        w.at[w.count++] = line;
        line += strcspn(line, " \n");
    } while (*line++ == ' ');
    return w;
}

static void read_word(const char *from, char *word, size_t room)
{
    size_t len = strcspn(from, " \n");
    if (len >= room)
        broken("a request has a long word");
    memcpy(word, from, len);
    word[len] = 0;
}

/* The number of a word; the greatest there is where that is greater. */
static size_t read_count(const char *from)
{
    char *end;
    size_t count = strtoul(from, &end, 10);
    if (end == from || (*end != ' ' && *end != '\n'))
        broken("a request has no number where one belongs");
    return count;
}

static int64_t read_number(const char *from)
{
    char *end;
    int64_t number = strtoll(from, &end, 10);
    if (end == from || *end != ' ')
        broken("a request has no number where one belongs");
    return number;
}

static void read_ends(const char *from, int64_t *ends)
{
    char *end;
    for (size_t i = 0; i < FLOODRAFTER_N; i++, from = end + 1) {
        ends[i] = strtoll(from, &end, 10);
        if (end == from || (*end != ' ' && *end != ','))
            break;
        if (*end == ' ')
            return;
    }
    broken("a request has no list where one belongs");
}

static floodrafter_box read_box(const char *lo, const char *hi)
{
    floodrafter_box b = {{0}, {0}};
    read_ends(lo, b.lo);
    read_ends(hi, b.hi);
    return b;
}

bool is_room_call(const struct request *r)
{
    static const char *const words[] = {"clear", "open", "step", "reading", "close"};
    for (size_t k = 0; k < sizeof words / sizeof words[0]; k++)
        if (strcmp(r->word, words[k]) == 0)
            return true;
    return false;
}

static void read_visit(const struct words *w, struct request *r)
{
    r->slot = read_count(w->at[1]);
    r->visit = read_count(w->at[2]);
}

/* What stands between the operation, which is known, and the length. */
static void read_arguments(const struct words *w, struct request *r)
{
    if (w->count == WITH_BOX_AND_IMAGE) {
        r->boxed = true;
        r->n = read_count(w->at[1]);
        r->x = read_box(w->at[2], w->at[3]);
        r->k = read_box(w->at[4], w->at[5]);
    } else if (w->count == WITH_VISIT_AND_ROOM) {
        read_visit(w, r);
        r->room = read_count(w->at[3]);
    } else if (w->count == WITH_VISIT && is_room_call(r)) {
        read_visit(w, r);
    } else if (w->count == WITH_DEPTH && strcmp(r->word, "halve") == 0) {
        r->depth = read_number(w->at[1]);
        r->room = read_count(w->at[2]);
    } else if (w->count == WITH_BOX) {
        r->boxed = true;
        r->x = read_box(w->at[1], w->at[2]);
    } else if (w->count == WITH_LENGTHS) {
        r->lengths = w->at[1];
    } else if (w->count != BARE) {
        broken("a request has no header");
    }
}

bool next_request(struct bytes *requests, struct request *r)
{
    if (requests->len == 0)
        return false;
    struct words w = words_of(cut_line(requests));
    *r = (struct request){.lengths = NULL};
    read_word(w.at[0], r->word, sizeof r->word);
    read_arguments(&w, r);
    r->text = cut(requests, read_count(w.at[w.count - 1]));
    return true;
}

struct bytes next_answer(struct bytes *answers)
{
    return cut(answers, strtoul(cut_line(answers), NULL, 10));
}

struct cuts cuts_of(const struct request *r)
{
    return (struct cuts){.rest = r->text, .lengths = r->lengths, .after = SIZE_MAX};
}

bool next_part(struct cuts *c, struct bytes *part)
{
    size_t len = c->after;
    if (c->lengths != NULL) {
        /* the greatest there is where the list's is greater */
        char *end;
        len = strtoul(c->lengths, &end, 10);
        if (end == c->lengths || (*end != ',' && *end != ' '))
            broken("a request has no list where one belongs");
        c->lengths = *end == ',' ? end + 1 : NULL;
    } else if (c->rest.len == 0) {
        return false;
    }
    *part = cut(&c->rest, len < c->rest.len ? len : c->rest.len);
    return true;
}
