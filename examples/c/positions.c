/* Lists all closing positions of the job text on standard input: positions DEPTH. The box is halved at most DEPTH
   times one within the other; of each box that is listed it prints whether it is unique or open, and its ranges in
   units.
   Exit status, as answer.c has it: 0 listed, 1 a fault, 2 not run. */
#include "floodrafter.h"

#include <errno.h>
#include <inttypes.h>
#include <stdbool.h>
#include <stdio.h>
#include <stdlib.h>

/* The marks of a unit. An end in units has 16 decimals at most, which a double holds and printf shows exactly. */
#define UNIT 65536.0

static bool read_depth(const char *word, long *depth)
{
    char *end;
    errno = 0;
    *depth = strtol(word, &end, 10);
    return end != word && *end == '\0' && errno == 0;
}

/* The ends past n are zero and say nothing. */
static void print_box(size_t number, const int64_t *box, size_t n)
{
    const int64_t *lo = box + 1, *hi = lo + FLOODRAFTER_N;
    printf("box %zu: %s\n", number, box[0] == 1 ? "unique" : "open");
    for (size_t i = 0; i < n; i++)
        printf("unknown %zu: %.16f to %.16f\n", i + 1, (double)lo[i] / UNIT, (double)hi[i] / UNIT);
}

/* A text without a fault has no sentence: then it is the depth that was refused. */
static void tell_fault(const uint8_t *text, size_t len, long depth, floodrafter_listing l)
{
    uint8_t sentence[FLOODRAFTER_SENTENCE_MAX];
    size_t told = floodrafter_explain_job(text, len, sentence, sizeof sentence);
    fprintf(stderr, "standard input:%" PRIu64 ": fault %" PRIu64 ": ", l.line, l.fault);
    if (told > 0)
        fprintf(stderr, "%.*s\n", (int)told, (char *)sentence);
    else
        fprintf(stderr, "the depth is %ld: it lies from 0 to %d\n", depth, FLOODRAFTER_DEPTH_MAX);
}

int main(int argc, char **argv)
{
    /* one byte more than a text may have, so that a longer one gets its fault */
    uint8_t text[FLOODRAFTER_TEXT_MAX + 1];
    /* enough for every depth */
    int64_t list[FLOODRAFTER_LISTED * FLOODRAFTER_BOXES_MAX];
    long depth;

    if (argc != 2 || !read_depth(argv[1], &depth)) {
        fprintf(stderr, "usage: positions DEPTH\n");
        return 2;
    }
    size_t len = fread(text, 1, sizeof text, stdin);
    if (ferror(stdin)) {
        perror("standard input");
        return 2;
    }

    floodrafter_listing l = floodrafter_halve(text, len, depth, list, sizeof list / sizeof *list);
    if (l.fault != FLOODRAFTER_DONE) {
        tell_fault(text, len, depth, l);
        return 1;
    }
    printf("boxes: %zu\n", l.boxes);
    for (size_t i = 0; i < l.boxes; i++)
        print_box(i + 1, list + FLOODRAFTER_LISTED * i, l.n);
    if (ferror(stdout) || fflush(stdout) != 0) {
        perror("standard output");
        return 2;
    }
    return 0;
}
