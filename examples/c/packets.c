/* Answers the job text that arrives on standard input, packet by packet: the result on standard output, or the
   fault on standard error. The text is not kept: the state that goes from packet to packet holds one line of it.
   Exit status, as answer.c has it: 0 answered, 1 a fault, 2 not run. */
#define _POSIX_C_SOURCE 200809L

#include "floodrafter.h"

#include <inttypes.h>
#include <stdbool.h>
#include <stdio.h>
#include <unistd.h>

/* The longest packet; a pipe may hand over a shorter one at any time. */
enum { PACKET_MAX = 64 };

/* Takes every packet up to the end of the input; false where it cannot be read. floodrafter_take refuses none of
   them: the state comes from the library and nobody else. */
static bool take_packets(floodrafter_parts *parts)
{
    uint8_t packet[PACKET_MAX];
    ssize_t len;
    while ((len = read(STDIN_FILENO, packet, sizeof packet)) > 0)
        *parts = floodrafter_take(*parts, packet, (size_t)len).parts;
    return len == 0;
}

int main(void)
{
    uint8_t out[FLOODRAFTER_TEXT_MAX];
    floodrafter_parts parts = floodrafter_begin();

    if (!take_packets(&parts)) {
        perror("standard input");
        return 2;
    }

    floodrafter_answer a = floodrafter_end_solve(parts, out, sizeof out);
    if (a.fault != FLOODRAFTER_DONE) {
        fprintf(stderr, "standard input:%" PRIu64 ": fault %" PRIu64 "\n", a.line, a.fault);
        return 1;
    }
    if (fwrite(out, 1, a.len, stdout) != a.len || fflush(stdout) != 0) {
        perror("standard output");
        return 2;
    }
    return 0;
}
