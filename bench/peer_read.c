/* The reader of a whole job text. */
#include "peer_line.h"

/* "Order: job, kind, n, lo, hi, inv, steps, then n lines", and after n the pin. */
static fault read_lines(struct reader *r, struct job *job)
{
    fault f = read_job_number(r, job);
    if (f == FLOODRAFTER_DONE)
        f = read_kind(r, job);
    if (f == FLOODRAFTER_DONE)
        f = read_unknowns(r, job);
    if (f == FLOODRAFTER_DONE)
        f = read_pin(r, job);
    if (f == FLOODRAFTER_DONE)
        f = read_low_ends(r, job);
    if (f == FLOODRAFTER_DONE)
        f = read_high_ends(r, job);
    if (f == FLOODRAFTER_DONE)
        f = read_inverse(r, job);
    if (f == FLOODRAFTER_DONE)
        f = read_steps(r, job);
    for (size_t i = 0; f == FLOODRAFTER_DONE && i < job->n; i++)
        f = read_system_line(r, job, i);
    return f;
}

floodrafter_answer read_job(const uint8_t *text, size_t text_len, struct job *job)
{
    if (text_len > FLOODRAFTER_TEXT_MAX)
        return (floodrafter_answer){.fault = FLOODRAFTER_LONG_TEXT};
    /* An unfinished last line gets the fault of a missing one, or of an extra one. */
    struct reader r = {.at = text, .end = text + text_len};
    while (r.end > text && r.end[-1] != '\n')
        r.end--;
    fault f = read_lines(&r, job);
    if (f != FLOODRAFTER_DONE)
        return (floodrafter_answer){.fault = f, .line = r.line};
    if (r.at != text + text_len)
        return (floodrafter_answer){.fault = FLOODRAFTER_SPELLING, .line = r.line + 1};
    return (floodrafter_answer){.fault = FLOODRAFTER_DONE};
}
