/* A job's answer: its run, and its result text.
 * It stands in a header, as the step does, so that the compiler builds it into each entry, one of which is timed. */
#ifndef PEER_ANSWER_H
#define PEER_ANSWER_H

#include "peer_result.h"

/* Runs a job and writes its result text. */
static floodrafter_answer answer_job(struct job *job, uint8_t *out, size_t out_len)
{
    struct outcome o = run_job(job);
    /* "A fault [..] writes nowhere": the length is known only when the text is written. */
    uint8_t result[RESULT_MAX];
    size_t len = put_result(result, job, &o);
    if (out_len < len)
        return (floodrafter_answer){.fault = FLOODRAFTER_SHORT_BUFFER};
    memcpy(out, result, len);
    return (floodrafter_answer){.fault = FLOODRAFTER_DONE, .len = len};
}

#endif
