#include "rooms.h"

#include <stdio.h>
#include <string.h>

#include "peer_rooms.h"
#include "timing.h"

static const char *const names[ROOM_CALLS] = {
    [CLEAR] = "clear", [OPEN] = "open", [STEP] = "step", [READING] = "reading", [CLOSE] = "close"};

/* A solver's calls. */
static const struct {
    floodrafter_answer (*clear)(uint8_t *, size_t);
    floodrafter_opened (*open)(uint8_t *, size_t, const uint8_t *, size_t);
    floodrafter_answer (*step)(uint8_t *, size_t, uint64_t, uint64_t, uint8_t *, size_t);
    floodrafter_answer (*reading)(const uint8_t *, size_t, uint64_t, uint64_t, uint8_t *, size_t);
    floodrafter_answer (*close)(uint8_t *, size_t, uint64_t, uint64_t);
} room_entries[SOLVERS] = {
    [LIBRARY] = {floodrafter_room_clear, floodrafter_room_open, floodrafter_room_step, floodrafter_room_reading,
                 floodrafter_room_close},
    [PEER] = {peer_room_clear, peer_room_open, peer_room_step, peer_room_reading, peer_room_close}};

enum room_call room_call_of(const char *word)
{
    int call = 0;
    while (call < ROOM_CALLS && strcmp(word, names[call]) != 0)
        call++;
    return (enum room_call)call;
}

static void keep_answer(floodrafter_answer a, struct room_state *s)
{
    s->answer = (floodrafter_opened){.fault = a.fault, .line = a.line};
    s->len = a.len;
}

void call_room(int solver, enum room_call call, const struct room_shown *shown, struct room_state *s)
{
    const size_t size = FLOODRAFTER_TABLE;
    switch (call) {
    case OPEN:
        s->answer = room_entries[solver].open(s->table, size, shown->text, shown->text_len);
        s->len = 0;
        break;
    case STEP:
        keep_answer(room_entries[solver].step(s->table, size, shown->slot, shown->visit, s->out, shown->out_len), s);
        break;
    case READING:
        keep_answer(room_entries[solver].reading(s->table, size, shown->slot, shown->visit, s->out, shown->out_len), s);
        break;
    case CLOSE:
        keep_answer(room_entries[solver].close(s->table, size, shown->slot, shown->visit), s);
        break;
    default:
        keep_answer(room_entries[solver].clear(s->table, size), s);
    }
}

static void tell(const char *name, const struct room_state *s)
{
    unsigned long long fault = s->answer.fault, line = s->answer.line;
    unsigned long long slot = s->answer.slot, visit = s->answer.visit;
    printf("%-8s fault %llu, line %llu, slot %llu, visit %llu, length %zu\n", name, fault, line, slot, visit, s->len);
}

bool same_room(enum room_call call, const struct room_shown *shown, struct room_state *library,
               struct room_state *peer)
{
    /* whatever stood there, both have the same old bytes */
    memset(library->out, 0xA5, sizeof library->out);
    memset(peer->out, 0xA5, sizeof peer->out);
    call_room(LIBRARY, call, shown, library);
    call_room(PEER, call, shown, peer);
    if (memcmp(&library->answer, &peer->answer, sizeof peer->answer) == 0 && library->len == peer->len &&
        memcmp(library->table, peer->table, sizeof peer->table) == 0 &&
        memcmp(library->out, peer->out, sizeof peer->out) == 0)
        return true;
    printf("%s, slot %llu, visit %llu: the answers or the bytes that are left differ\n", names[call],
           (unsigned long long)shown->slot, (unsigned long long)shown->visit);
    tell("library:", library);
    tell("peer:", peer);
    return false;
}
