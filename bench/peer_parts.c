#include "peer_parts.h"

#include "peer_answer.h"
#include "peer_line.h"

/* "Order: job, kind, n, lo, hi, inv, steps, then n lines", and after n the pin. */
enum { NUMBER, KIND, UNKNOWNS, PIN, LOW_ENDS, HIGH_ENDS, INVERSE, STEPS, SYSTEM };

/* Reads the line of that place; a pin that is not written leaves the line to the low ends. */
static fault read_line(struct reader *r, struct job *job, size_t place)
{
    switch (place) {
    case NUMBER:
        return read_job_number(r, job);
    case KIND:
        return read_kind(r, job);
    case UNKNOWNS:
        return read_unknowns(r, job);
    case PIN:
        return read_pin(r, job);
    case LOW_ENDS:
        return read_low_ends(r, job);
    case HIGH_ENDS:
        return read_high_ends(r, job);
    case INVERSE:
        return read_inverse(r, job);
    case STEPS:
        return read_steps(r, job);
    default:
        return read_system_line(r, job, place - SYSTEM);
    }
}

/* Before n is read it is 0. */
static bool is_whole(const struct peer_parts *p)
{
    return p->next == SYSTEM + p->job.n;
}

/* The held line has ended. */
static void end_line(struct peer_parts *p)
{
    struct reader r = {.at = p->bytes, .end = p->bytes + p->held, .line = p->line};
    p->held = 0;
    if (is_whole(p)) {
        p->fault = FLOODRAFTER_SPELLING;
        p->line++;
        return;
    }
    while (p->fault == FLOODRAFTER_DONE && r.at < r.end)
        p->fault = read_line(&r, &p->job, p->next++);
    p->line = r.line;
}

void peer_begin(struct peer_parts *p)
{
    p->size = p->held = p->next = p->job.n = 0;
    p->fault = p->line = 0;
}

/* "The first bad line decides", and "fault 1 comes first": after either, bytes are only counted. */
void peer_take(struct peer_parts *p, const uint8_t *part, size_t part_len)
{
    size_t room = FLOODRAFTER_TEXT_MAX + 1 - p->size;
    p->size += part_len < room ? part_len : room;
    if (p->size > FLOODRAFTER_TEXT_MAX)
        return;
    while (part_len > 0 && p->fault == FLOODRAFTER_DONE) {
        const uint8_t *feed = memchr(part, '\n', part_len);
        size_t len = feed == NULL ? part_len : (size_t)(feed + 1 - part);
        memcpy(p->bytes + p->held, part, len);
        p->held += len;
        part += len;
        part_len -= len;
        if (feed != NULL)
            end_line(p);
    }
}

/* An unfinished last line gets the fault of a missing one, or of an extra one. */
floodrafter_answer peer_end_check(const struct peer_parts *p)
{
    if (p->size > FLOODRAFTER_TEXT_MAX)
        return (floodrafter_answer){.fault = FLOODRAFTER_LONG_TEXT};
    if (p->fault != FLOODRAFTER_DONE)
        return (floodrafter_answer){.fault = p->fault, .line = p->line};
    if (p->held > 0 || !is_whole(p))
        return (floodrafter_answer){.fault = FLOODRAFTER_SPELLING, .line = p->line + 1};
    return (floodrafter_answer){.fault = FLOODRAFTER_DONE};
}

floodrafter_answer peer_end_solve(struct peer_parts *p, uint8_t *out, size_t out_len)
{
    floodrafter_answer answer = peer_end_check(p);
    return answer.fault != FLOODRAFTER_DONE ? answer : answer_job(&p->job, out, out_len);
}
