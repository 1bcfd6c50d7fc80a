#include "in_parts.h"

#include "peer_parts.h"

static size_t part_at(size_t at, size_t text_len)
{
    return text_len - at < PART ? text_len - at : PART;
}

floodrafter_answer library_in_parts(const uint8_t *text, size_t text_len)
{
    floodrafter_parts parts = floodrafter_begin();
    for (size_t at = 0; at < text_len; at += PART)
        parts = floodrafter_take(parts, text + at, part_at(at, text_len)).parts;
    return floodrafter_end_check(parts);
}

floodrafter_answer peer_in_parts(const uint8_t *text, size_t text_len)
{
    struct peer_parts parts;
    peer_begin(&parts);
    for (size_t at = 0; at < text_len; at += PART)
        peer_take(&parts, text + at, part_at(at, text_len));
    return peer_end_check(&parts);
}
