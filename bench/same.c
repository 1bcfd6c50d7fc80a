#include "same.h"

#include <stdio.h>
#include <string.h>

#include "in_parts.h"
#include "peer.h"
#include "peer_parts.h"
#include "requests.h"
#include "rooms.h"

/* The room behind the lent buffer shows a byte written too far. */
enum { ROOM = 64, OLD_BYTE = 0xA5 };

struct solved {
    floodrafter_answer answer;
    uint8_t out[FLOODRAFTER_TEXT_MAX + ROOM];
};

static bool equal(floodrafter_answer a, floodrafter_answer b)
{
    return a.fault == b.fault && a.line == b.line && a.len == b.len;
}

void tell_text(const uint8_t *text, size_t text_len)
{
    printf("text of %zu bytes:\n", text_len);
    fwrite(text, 1, text_len, stdout);
    putchar('\n');
}

static void tell(const char *entry, const uint8_t *text, size_t text_len, floodrafter_answer library, floodrafter_answer peer)
{
    printf("%s: the answers differ\n", entry);
    printf("library: fault %llu, line %llu, length %zu\n", (unsigned long long)library.fault, (unsigned long long)library.line, library.len);
    printf("peer:    fault %llu, line %llu, length %zu\n", (unsigned long long)peer.fault, (unsigned long long)peer.line, peer.len);
    tell_text(text, text_len);
}

static void make_old(struct solved *s)
{
    memset(s->out, OLD_BYTE, sizeof s->out);
}

/* Every byte of a buffer is held against the other's, those beyond the answer too. */
static bool equal_solved(const struct solved *a, const struct solved *b)
{
    return equal(a->answer, b->answer) && memcmp(a->out, b->out, sizeof a->out) == 0;
}

/* Both solve into a buffer of out_len bytes. */
static bool same_solved(const uint8_t *text, size_t text_len, size_t out_len, floodrafter_answer *answer)
{
    static struct solved library, peer;
    make_old(&library);
    make_old(&peer);
    library.answer = floodrafter_solve(text, text_len, library.out, out_len);
    peer.answer = peer_solve(text, text_len, peer.out, out_len);
    *answer = peer.answer;
    if (equal_solved(&library, &peer))
        return true;
    printf("buffer of %zu bytes, ", out_len);
    tell("solve", text, text_len, library.answer, peer.answer);
    return false;
}

static void tell_box(const char *name, const floodrafter_box *b)
{
    printf("%-8s", name);
    for (size_t i = 0; i < FLOODRAFTER_N; i++)
        printf(" [%lld, %lld]", (long long)b->lo[i], (long long)b->hi[i]);
    putchar('\n');
}

static bool equal_boxes(const floodrafter_box *a, const floodrafter_box *b)
{
    return memcmp(a, b, sizeof *a) == 0;
}

static bool same_shown(const char *entry, floodrafter_shown library, floodrafter_shown peer)
{
    if (library.fault == peer.fault && library.line == peer.line && library.n == peer.n && equal_boxes(&library.box, &peer.box))
        return true;
    printf("%s: the answers differ\n", entry);
    printf("library: fault %llu, line %llu, n %zu\n", (unsigned long long)library.fault, (unsigned long long)library.line, library.n);
    printf("peer:    fault %llu, line %llu, n %zu\n", (unsigned long long)peer.fault, (unsigned long long)peer.line, peer.n);
    tell_box("library:", &library.box);
    tell_box("peer:", &peer.box);
    return false;
}

static bool same_image(const uint8_t *text, size_t text_len, floodrafter_box x)
{
    if (same_shown("image", floodrafter_image(text, text_len, x), peer_image(text, text_len, x)))
        return true;
    tell_box("box:", &x);
    tell_text(text, text_len);
    return false;
}

static bool same_decided(size_t n, floodrafter_box x, floodrafter_box k)
{
    floodrafter_move library = floodrafter_decide(n, x, k), peer = peer_decide(n, x, k);
    if (library.fault == peer.fault && library.line == peer.line && library.verdict == peer.verdict && equal_boxes(&library.box, &peer.box))
        return true;
    printf("decide: the answers differ\n");
    printf("library: fault %llu, line %llu, verdict %llu\n", (unsigned long long)library.fault, (unsigned long long)library.line,
           (unsigned long long)library.verdict);
    printf("peer:    fault %llu, line %llu, verdict %llu\n", (unsigned long long)peer.fault, (unsigned long long)peer.line,
           (unsigned long long)peer.verdict);
    tell_box("library:", &library.box);
    tell_box("peer:", &peer.box);
    printf("n:       %zu\n", n);
    tell_box("box:", &x);
    tell_box("image:", &k);
    return false;
}

/* The first step of a job, operation by operation. Of a text with a fault n and the box are zero, and each operation has a fault to give. */
static bool same_step(const uint8_t *text, size_t text_len)
{
    floodrafter_shown x = peer_start(text, text_len);
    if (!same_shown("start", floodrafter_start(text, text_len), x)) {
        tell_text(text, text_len);
        return false;
    }
    return same_image(text, text_len, x.box) && same_decided(x.n, x.box, peer_image(text, text_len, x.box).box);
}

/* What is answered at the end of a text. */
struct ended {
    floodrafter_answer check;
    struct solved solved;
};

static struct ended end_library(floodrafter_parts parts)
{
    struct ended e = {.check = floodrafter_end_check(parts)};
    make_old(&e.solved);
    e.solved.answer = floodrafter_end_solve(parts, e.solved.out, FLOODRAFTER_TEXT_MAX);
    return e;
}

static struct ended end_peer(struct peer_parts *parts)
{
    struct ended e = {.check = peer_end_check(parts)};
    make_old(&e.solved);
    e.solved.answer = peer_end_solve(parts, e.solved.out, FLOODRAFTER_TEXT_MAX);
    return e;
}

static struct ended end_whole(struct bytes text)
{
    struct ended e = {.check = peer_check_job(text.at, text.len)};
    make_old(&e.solved);
    e.solved.answer = peer_solve(text.at, text.len, e.solved.out, FLOODRAFTER_TEXT_MAX);
    return e;
}

static bool equal_ended(const struct ended *a, const struct ended *b)
{
    return equal(a->check, b->check) && equal_solved(&a->solved, &b->solved);
}

/* Both take the same parts of a text, and answer at its end as the peer answers to the whole text. */
static bool same_in_parts(struct bytes text, struct cuts cuts)
{
    static struct peer_parts peer_parts;
    floodrafter_parts parts = floodrafter_begin();
    struct bytes part;
    peer_begin(&peer_parts);
    while (next_part(&cuts, &part)) {
        parts = floodrafter_take(parts, part.at, part.len).parts;
        peer_take(&peer_parts, part.at, part.len);
    }
    struct ended library = end_library(parts), peer = end_peer(&peer_parts), whole = end_whole(text);
    if (equal_ended(&library, &whole) && equal_ended(&peer, &whole))
        return true;
    printf("in parts, or not as the whole text: ");
    tell("end_check", text.at, text.len, library.check, peer.check);
    tell("end_solve", text.at, text.len, library.solved.answer, peer.solved.answer);
    return false;
}

/* Two halvings, with the shortest list that is enough, and with one number less. */
static bool same_halved_twice(const uint8_t *text, size_t text_len)
{
    enum { TWICE = 2, ENOUGH = FLOODRAFTER_LISTED << TWICE };
    return same_halved(text, text_len, TWICE, ENOUGH) && same_halved(text, text_len, TWICE, ENOUGH - 1);
}

bool same_answers(const uint8_t *text, size_t text_len)
{
    struct bytes all = {text, text_len};
    floodrafter_answer library = floodrafter_check_job(text, text_len);
    floodrafter_answer peer = peer_check_job(text, text_len);
    if (!equal(library, peer)) {
        tell("check_job", text, text_len, library, peer);
        return false;
    }
    floodrafter_answer answer, again;
    if (!same_step(text, text_len) || !same_solved(text, text_len, FLOODRAFTER_TEXT_MAX, &answer))
        return false;
    if (!same_in_parts(all, (struct cuts){.rest = all, .after = PART}) || !same_halved_twice(text, text_len))
        return false;
    /* The shortest buffer that is enough, and one byte less. */
    return answer.fault != FLOODRAFTER_DONE ||
           (same_solved(text, text_len, answer.len, &again) && same_solved(text, text_len, answer.len - 1, &again));
}

/* `halve DEPTH ROOM LENGTH`, with a list for so many boxes. */
static bool same_halving(const struct request *r)
{
    if (FLOODRAFTER_BOXES_MAX < r->room) {
        printf("halve: no list of %zu boxes is lent here\n", r->room);
        return false;
    }
    return same_halved(r->text.at, r->text.len, r->depth, r->room * FLOODRAFTER_LISTED);
}

/* A call on the table of rooms: both keep a table of their own from the first request to the last. */
static bool same_room_request(const struct request *r)
{
    static struct room_state library, peer;
    enum room_call call = room_call_of(r->word);
    struct room_shown shown = {r->slot, r->visit, r->text.at, r->text.len, FLOODRAFTER_TEXT_MAX};
    if (call == READING)
        shown.out_len = r->room;
    if (FLOODRAFTER_TEXT_MAX < shown.out_len) {
        printf("reading: no buffer of %zu bytes is lent here\n", r->room);
        return false;
    }
    return same_room(call, &shown, &library, &peer);
}

/* The text of any request is a job's, or gets a fault as one; the parts, the box, the image, the depth and the list
 * that stand in the line are held too, and so are the calls on the table of rooms. */
static bool same_request(const struct request *r)
{
    if (strcmp(r->word, "decide") == 0)
        return same_decided(r->n, r->x, r->k);
    if (!same_answers(r->text.at, r->text.len) || (is_room_call(r) && !same_room_request(r)))
        return false;
    if (strcmp(r->word, "halve") == 0)
        return same_halving(r);
    return (r->lengths == NULL || same_in_parts(r->text, cuts_of(r))) &&
           (!r->boxed || same_image(r->text.at, r->text.len, r->x));
}

bool same_answers_in_file(const char *name, size_t *count)
{
    struct bytes requests = whole_file(name);
    struct request r;
    for (*count = 0; next_request(&requests, &r); *count += 1) {
        if (!same_request(&r))
            return false;
    }
    return true;
}
