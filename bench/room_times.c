#include "room_times.h"

#include <stdio.h>
#include <string.h>

#include "jobs.h"
#include "peer_rooms.h"
#include "rooms.h"
#include "timing.h"

enum { ROOMS = FLOODRAFTER_ROOMS };

/* The sorts of the jobs in the rooms: polynomial ones of 1 and 2 unknowns, and of 4 and 6 with 16 terms. */
static const size_t sorts_in_rooms[ROOMS] = {0, 1, 3, 11, 0, 1, 3, 11};

/* Tables with a visit in a room, whose slot is the room's number and whose visit one more, and without it; in the other
 * rooms are visits too, or in none of them. */
struct scene {
    struct text jobs[ROOMS];
    uint8_t with[ROOMS][FLOODRAFTER_TABLE], without[ROOMS][FLOODRAFTER_TABLE];
};
static struct scene scene;

/* "Closing" makes "all bytes of the slot" zero. */
static void empty_slot(uint8_t *table, size_t slot)
{
    memset(table + slot_at(slot), 0, SLOT_SIZE);
}

static void set_scene(size_t taken)
{
    static uint8_t full[FLOODRAFTER_TABLE];
    peer_room_clear(full, sizeof full);
    for (size_t room = 0; room < ROOMS; room++) {
        struct text *job = &scene.jobs[room];
        write_job(&sorts[sorts_in_rooms[room]], LATE, 1000, job);
        peer_room_open(full, sizeof full, job->bytes, job->len);
    }
    for (size_t room = 0; room < ROOMS; room++) {
        memcpy(scene.with[room], full, sizeof full);
        for (size_t other = 0; other < ROOMS; other++)
            if (other != room && taken < ROOMS)
                empty_slot(scene.with[room], other);
        memcpy(scene.without[room], scene.with[room], sizeof full);
        empty_slot(scene.without[room], room);
    }
}

/* What is timed: a call, or what stands in its place. */
enum { FORM = ROOM_CALLS, COPY, WORKS };

/* The last table and answer of each solver. */
static struct room_state states[SOLVERS];

/* Each call is made on a copy, so that every one finds the same table. */
static const uint8_t *table_for(int work, size_t room)
{
    return work == OPEN ? scene.without[room] : scene.with[room];
}

static struct room_shown shown_for(int work, size_t room)
{
    const struct text *job = &scene.jobs[room];
    uint64_t slot = work == FORM ? ROOMS : room;
    return (struct room_shown){slot, room + 1, job->bytes, job->len, FLOODRAFTER_READING_MAX};
}

/* Any call that shows no slot of the table is refused by 15 once the form is checked. */
static enum room_call call_for(int work)
{
    return work == FORM ? READING : (enum room_call)work;
}

static void do_work(int solver, int work, size_t room)
{
    struct room_shown shown = shown_for(work, room);
    memcpy(states[solver].table, table_for(work, room), FLOODRAFTER_TABLE);
    if (work != COPY)
        call_room(solver, call_for(work), &shown, &states[solver]);
}

static double seconds_of_work(int solver, const void *work, long times)
{
    double start = processor_seconds();
    for (long k = 0; k < times; k++)
        for (size_t room = 0; room < ROOMS; room++)
            do_work(solver, *(const int *)work, room);
    return processor_seconds() - start;
}

static bool same_room_time(int work, size_t room)
{
    struct room_state *library = &states[LIBRARY], *peer = &states[PEER];
    struct room_shown shown = shown_for(work, room);
    memcpy(library->table, table_for(work, room), FLOODRAFTER_TABLE);
    memcpy(peer->table, table_for(work, room), FLOODRAFTER_TABLE);
    if (!same_room(call_for(work), &shown, library, peer))
        return false;
    uint64_t fault = work == FORM ? FLOODRAFTER_NOT_OPEN : FLOODRAFTER_DONE;
    if (peer->answer.fault == fault)
        return true;
    printf("a call on the table of rooms is refused by %d\n", (int)peer->answer.fault);
    return false;
}

bool same_room_times(void)
{
    static const size_t both[] = {ROOMS, 1};
    for (size_t k = 0; k < sizeof both / sizeof both[0]; k++) {
        set_scene(both[k]);
        for (int work = OPEN; work <= FORM; work++)
            for (size_t room = 0; room < ROOMS; room++)
                if (!same_room_time(work, room))
                    return false;
    }
    return true;
}

/* The mean over the rooms, less the copy. */
static void measure_rooms(size_t taken, struct times *of)
{
    const int copy = COPY;
    set_scene(taken);
    of[COPY] = measure_work(seconds_of_work, &copy);
    for (int work = OPEN; work <= FORM; work++) {
        of[work] = measure_work(seconds_of_work, &work);
        for (int solver = 0; solver < SOLVERS; solver++)
            of[work].of[solver] = (of[work].of[solver] - of[COPY].of[solver]) / ROOMS;
    }
}

void print_room_times(void)
{
    static const char *const names[] = {
        [OPEN] = "open", [STEP] = "step", [READING] = "reading", [CLOSE] = "close", [FORM] = "the form alone"};
    struct times eight[WORKS], one[WORKS];
    measure_rooms(ROOMS, eight);
    measure_rooms(1, one);
    printf("\nThe table of rooms, nanoseconds of a call, a mean over the rooms.\n");
    printf("%-19s | %-28s | %s\n", "", "eight rooms taken", "one room taken");
    printf("%-19s | %9s %9s %8s | %9s %9s %8s\n", "call", "library", "peer", "ratio", "library", "peer", "ratio");
    for (int work = OPEN; work <= FORM; work++) {
        struct times e = eight[work], o = one[work];
        printf("%-19s | %9.0f %9.0f %8.2f", names[work], 1e9 * e.of[LIBRARY], 1e9 * e.of[PEER], ratio(e));
        printf(" | %9.0f %9.0f %8.2f\n", 1e9 * o.of[LIBRARY], 1e9 * o.of[PEER], ratio(o));
    }
}

bool do_room_work(int solver, const char *word, size_t taken, long times)
{
    int work = room_call_of(word);
    if (strcmp(word, "form") == 0)
        work = FORM;
    else if (strcmp(word, "copy") == 0)
        work = COPY;
    else if (work < OPEN || ROOM_CALLS <= work)
        return false;
    set_scene(taken);
    seconds_of_work(solver, &work, times);
    return true;
}
