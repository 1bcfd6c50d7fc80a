/* Answers the job text in a file: the result on standard output, or the fault on standard error.
   Exit status, as ./floodrafter has it: 0 answered, 1 a fault, 2 not run. */
#include "floodrafter.h"

#include <inttypes.h>
#include <stdio.h>

int main(int argc, char **argv)
{
    /* one byte more than a text may have, so that a longer file gets its fault */
    uint8_t text[FLOODRAFTER_TEXT_MAX + 1];
    uint8_t out[FLOODRAFTER_TEXT_MAX];

    if (argc != 2) {
        fprintf(stderr, "usage: answer FILE\n");
        return 2;
    }
    FILE *file = fopen(argv[1], "rb");
    if (file == NULL) {
        perror(argv[1]);
        return 2;
    }
    size_t len = fread(text, 1, sizeof text, file);
    int unread = ferror(file);
    fclose(file);
    if (unread) {
        fprintf(stderr, "%s: cannot be read\n", argv[1]);
        return 2;
    }

    floodrafter_answer a = floodrafter_solve(text, len, out, sizeof out);
    if (a.fault != FLOODRAFTER_DONE) {
        uint8_t sentence[FLOODRAFTER_SENTENCE_MAX];
        size_t told = floodrafter_explain_job(text, len, sentence, sizeof sentence);
        fprintf(stderr, "%s:%" PRIu64 ": fault %" PRIu64 ": %.*s\n", argv[1], a.line, a.fault, (int)told, (char *)sentence);
        return 1;
    }
    if (fwrite(out, 1, a.len, stdout) != a.len || fflush(stdout) != 0) {
        perror("standard output");
        return 2;
    }
    return 0;
}
