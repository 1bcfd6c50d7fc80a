/* Walks the steps of the job text in a file, 20 or as many as are told: steps FILE [STEPS]. Of each step it prints the image K and what is decided, in
   marks, until there is a verdict; the job's own allowance is not asked.
   Exit status, as answer.c has it: 0 walked, 1 a fault, 2 not run. */
#include "floodrafter.h"

#include <inttypes.h>
#include <stdbool.h>
#include <stdio.h>
#include <stdlib.h>
#include <string.h>

static const char *const verdicts[] = {
    [FLOODRAFTER_NONE] = "none", [FLOODRAFTER_UNIQUE] = "unique", [FLOODRAFTER_STALLED] = "stalled", [FLOODRAFTER_NEXT] = "next"};

static void print_list(const char *key, const int64_t *ends, size_t n)
{
    printf("%s=", key);
    for (size_t i = 0; i < n; i++)
        printf("%" PRId64 "%c", ends[i], i + 1 < n ? ',' : '\n');
}

static void print_step(unsigned long step, floodrafter_shown k, floodrafter_move m)
{
    printf("step=%lu\n", step);
    print_list("klo", k.box.lo, k.n);
    print_list("khi", k.box.hi, k.n);
    printf("verdict=%s\n", verdicts[m.verdict]);
    print_list("lo", m.box.lo, k.n);
    print_list("hi", m.box.hi, k.n);
}

/* From the starting box x on. The text has no fault, and then no step has one. */
static void walk(const uint8_t *text, size_t len, floodrafter_box x, unsigned long steps)
{
    for (unsigned long step = 1; step <= steps; step++) {
        floodrafter_shown k = floodrafter_image(text, len, x);
        floodrafter_move m = floodrafter_decide(k.n, x, k.box);
        print_step(step, k, m);
        if (m.verdict != FLOODRAFTER_NEXT)
            break;
        x = m.box;
    }
}

static bool is_count(const char *word)
{
    return *word != '\0' && word[strspn(word, "0123456789")] == '\0';
}

static bool read_file(const char *path, uint8_t *text, size_t room, size_t *len)
{
    FILE *file = fopen(path, "rb");
    if (file == NULL) {
        perror(path);
        return false;
    }
    *len = fread(text, 1, room, file);
    bool unread = ferror(file);
    fclose(file);
    if (unread)
        fprintf(stderr, "%s: cannot be read\n", path);
    return !unread;
}

int main(int argc, char **argv)
{
    /* one byte more than a text may have, so that a longer file gets its fault */
    uint8_t text[FLOODRAFTER_TEXT_MAX + 1];
    size_t len;

    if (argc < 2 || argc > 3 || (argc == 3 && !is_count(argv[2]))) {
        fprintf(stderr, "usage: steps FILE [STEPS]\n");
        return 2;
    }
    if (!read_file(argv[1], text, sizeof text, &len))
        return 2;

    floodrafter_shown start = floodrafter_start(text, len);
    if (start.fault != FLOODRAFTER_DONE) {
        uint8_t sentence[FLOODRAFTER_SENTENCE_MAX];
        size_t told = floodrafter_explain_job(text, len, sentence, sizeof sentence);
        fprintf(stderr, "%s:%" PRIu64 ": fault %" PRIu64 ": %.*s\n", argv[1], start.line, start.fault, (int)told, (char *)sentence);
        return 1;
    }
    walk(text, len, start.box, argc == 3 ? strtoul(argv[2], NULL, 10) : 20);
    if (ferror(stdout) || fflush(stdout) != 0) {
        perror("standard output");
        return 2;
    }
    return 0;
}
