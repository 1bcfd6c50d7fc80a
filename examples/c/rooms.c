/* Eight fitting rooms on one screen. One table holds the jobs of all visitors, and each line that is typed on standard
   input is a call on it:

       open FILE            a visit begins with the job text in FILE; its slot and its visit number are told
       step SLOT VISIT      one step of the visit's job
       run SLOT VISIT       steps until the visit is finished
       show SLOT VISIT      the reading, with its box
       close SLOT VISIT     the visit ends, and its slot is free
       clear                all rooms are free, and visits count from 1 again
       quit                 the end, as is that of the input

   After a call that may change the table the eight rooms are shown. Of one that is refused, as every call is that shows
   a visit which is over, the fault is told with its sentence.
   Exit status: 0 at the end, 2 where the input cannot be read or the output not be written. */
#include "floodrafter.h"

#include <errno.h>
#include <inttypes.h>
#include <stdbool.h>
#include <stdio.h>
#include <stdlib.h>
#include <string.h>

/* Who is in the rooms is known by what opening told: 0 stands for nobody. */
struct screen {
    uint8_t table[FLOODRAFTER_TABLE];
    uint64_t visits[FLOODRAFTER_ROOMS];
};

/* A reading, with a 0 at its end. */
struct reading {
    char text[FLOODRAFTER_READING_MAX + 1];
};

/* The value in the line of that key: a reading has all of its lines, and no value has a key in it. */
static const char *value_of(const struct reading *r, const char *key, char *value, size_t room)
{
    const char *from = strstr(r->text, key) + strlen(key);
    snprintf(value, room, "%.*s", (int)strcspn(from, "\n"), from);
    return value;
}

/* Tells of a refusal, and says whether there is one. */
static bool is_refused(uint64_t fault)
{
    uint8_t sentence[FLOODRAFTER_SENTENCE_MAX];
    if (fault == FLOODRAFTER_DONE)
        return false;
    size_t told = floodrafter_room_explain(fault, sentence, sizeof sentence);
    printf("fault %" PRIu64 ": %.*s\n", fault, (int)told, (char *)sentence);
    return true;
}

static bool read_room(const struct screen *s, uint64_t slot, uint64_t visit, struct reading *r)
{
    uint8_t *out = (uint8_t *)r->text;
    const size_t room = FLOODRAFTER_READING_MAX;
    floodrafter_answer a = floodrafter_room_reading(s->table, sizeof s->table, slot, visit, out, room);
    r->text[a.len] = '\0';
    return !is_refused(a.fault);
}

static bool step_room(struct screen *s, uint64_t slot, uint64_t visit, struct reading *r)
{
    uint8_t *out = (uint8_t *)r->text;
    const size_t room = FLOODRAFTER_READING_MAX;
    floodrafter_answer a = floodrafter_room_step(s->table, sizeof s->table, slot, visit, out, room);
    r->text[a.len] = '\0';
    return !is_refused(a.fault);
}

static void show_rooms(const struct screen *s)
{
    printf("slot     visit       job verdict steps\n");
    for (size_t slot = 0; slot < FLOODRAFTER_ROOMS; slot++) {
        struct reading r;
        char job[16], verdict[16], steps[16];
        if (s->visits[slot] == 0)
            printf("%4zu      free\n", slot);
        else if (read_room(s, slot, s->visits[slot], &r))
            printf("%4zu %9" PRIu64 " %9s %-7s %5s\n", slot, s->visits[slot], value_of(&r, "job=", job, sizeof job),
                   value_of(&r, "verdict=", verdict, sizeof verdict), value_of(&r, "steps=", steps, sizeof steps));
    }
}

static bool read_file(const char *path, uint8_t *text, size_t room, size_t *len)
{
    FILE *file = fopen(path, "rb");
    if (file != NULL) {
        *len = fread(text, 1, room, file);
        bool unread = ferror(file);
        fclose(file);
        if (!unread)
            return true;
    }
    printf("%s: %s\n", path, strerror(errno));
    return false;
}

/* A fault that is none of the table's is the job text's own: it has a line, and its sentence comes from the text. */
static void tell_unopened(const char *path, const uint8_t *text, size_t len, floodrafter_opened o)
{
    uint8_t sentence[FLOODRAFTER_SENTENCE_MAX];
    if (floodrafter_room_explain(o.fault, sentence, 0) > 0) {
        is_refused(o.fault);
        return;
    }
    size_t told = floodrafter_explain_job(text, len, sentence, sizeof sentence);
    printf("%s:%" PRIu64 ": fault %" PRIu64 ": %.*s\n", path, o.line, o.fault, (int)told, (char *)sentence);
}

/* This and every call below is true where the rooms may have changed. */
static bool open_visit(struct screen *s, const char *path)
{
    /* one byte more than a text may have, so that a longer file gets its fault */
    uint8_t text[FLOODRAFTER_TEXT_MAX + 1];
    size_t len;
    if (!read_file(path, text, sizeof text, &len))
        return false;
    floodrafter_opened o = floodrafter_room_open(s->table, sizeof s->table, text, len);
    if (o.fault != FLOODRAFTER_DONE) {
        tell_unopened(path, text, len, o);
        return false;
    }
    s->visits[o.slot] = o.visit;
    printf("slot %" PRIu64 ", visit %" PRIu64 "\n", o.slot, o.visit);
    return true;
}

static bool clear_visits(struct screen *s)
{
    memset(s->visits, 0, sizeof s->visits);
    return !is_refused(floodrafter_room_clear(s->table, sizeof s->table).fault);
}

static bool step_visit(struct screen *s, uint64_t slot, uint64_t visit)
{
    struct reading r;
    return step_room(s, slot, visit, &r);
}

/* A step that leaves the reading as it was says that the visit is finished. */
static bool run_visit(struct screen *s, uint64_t slot, uint64_t visit)
{
    struct reading before, after;
    if (!read_room(s, slot, visit, &after))
        return false;
    do {
        before = after;
        if (!step_room(s, slot, visit, &after))
            return false;
    } while (strcmp(before.text, after.text) != 0);
    return true;
}

static bool show_visit(struct screen *s, uint64_t slot, uint64_t visit)
{
    struct reading r;
    if (read_room(s, slot, visit, &r))
        fputs(r.text, stdout);
    return false;
}

static bool close_visit(struct screen *s, uint64_t slot, uint64_t visit)
{
    if (is_refused(floodrafter_room_close(s->table, sizeof s->table, slot, visit).fault))
        return false;
    s->visits[slot] = 0;
    return true;
}

static const struct {
    const char *word;
    bool (*call)(struct screen *s, uint64_t slot, uint64_t visit);
} visit_calls[] = {{"step", step_visit}, {"run", run_visit}, {"show", show_visit}, {"close", close_visit}};

/* Digits alone. A number that 64 bits do not hold is read as the greatest that they do: no slot and no visit either. */
static bool read_number(const char *word, uint64_t *number)
{
    *number = strtoull(word, NULL, 10);
    return word[strspn(word, "0123456789")] == '\0';
}

/* The words of a line: a call and what it is shown. */
enum { WORDS = 3 };

static bool do_command(struct screen *s, char *words[WORDS], size_t count)
{
    uint64_t slot, visit;
    if (count == 1 && strcmp(words[0], "clear") == 0)
        return clear_visits(s);
    if (count == 2 && strcmp(words[0], "open") == 0)
        return open_visit(s, words[1]);
    for (size_t k = 0; count == 3 && k < sizeof visit_calls / sizeof visit_calls[0]; k++)
        if (strcmp(words[0], visit_calls[k].word) == 0 && read_number(words[1], &slot) && read_number(words[2], &visit))
            return visit_calls[k].call(s, slot, visit);
    printf("open FILE; step, run, show or close with SLOT VISIT; clear; quit\n");
    return false;
}

/* The words of the next line, and their count: over WORDS where there are too many, or where the line is too long. */
static bool read_command(char *line, int room, char *words[WORDS], size_t *count)
{
    if (fgets(line, room, stdin) == NULL)
        return false;
    bool whole = strchr(line, '\n') != NULL || feof(stdin);
    *count = 0;
    for (char *word = strtok(line, " \t\r\n"); word != NULL; word = strtok(NULL, " \t\r\n"), ++*count)
        if (*count < WORDS)
            words[*count] = word;
    for (int c = 0; !whole && c != '\n' && c != EOF; *count = WORDS + 1)
        c = getchar();
    return true;
}

int main(void)
{
    static struct screen s;
    char line[4096], *words[WORDS];
    size_t count;
    clear_visits(&s);
    show_rooms(&s);
    while (fflush(stdout) == 0 && read_command(line, sizeof line, words, &count)) {
        if (count == 1 && strcmp(words[0], "quit") == 0)
            break;
        if (count > 0 && do_command(&s, words, count))
            show_rooms(&s);
    }
    if (ferror(stdin))
        perror("standard input");
    else if (ferror(stdout) || fflush(stdout) != 0)
        perror("standard output");
    return ferror(stdin) || ferror(stdout) ? 2 : 0;
}
