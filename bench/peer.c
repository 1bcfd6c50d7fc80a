/* The peer's entries for a whole text. */
#include "peer.h"
#include "peer_answer.h"

floodrafter_answer peer_solve(const uint8_t *text, size_t text_len, uint8_t *out, size_t out_len)
{
    struct job job;
    floodrafter_answer answer = read_job(text, text_len, &job);
    return answer.fault != FLOODRAFTER_DONE ? answer : answer_job(&job, out, out_len);
}

floodrafter_answer peer_check_job(const uint8_t *text, size_t text_len)
{
    struct job job;
    return read_job(text, text_len, &job);
}
