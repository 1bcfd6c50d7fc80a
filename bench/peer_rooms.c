#include "peer_rooms.h"

#include "peer_result.h"
#include "peer_run.h"
#include "peer_scan.h"

_Static_assert(SLOT_SIZE == JOB_AT + NUMBER_SIZE + JOB_MAX, "two texts with their lengths");
_Static_assert(FLOODRAFTER_TABLE == NUMBER_SIZE + FLOODRAFTER_ROOMS * SLOT_SIZE, "a number and the slots");

/* A slot as it is read. */
struct room {
    bool taken;
    struct job job;
    struct outcome reading;
};

/* "Numbers of four bytes have the least byte first." */
static uint32_t load_number(const uint8_t *p)
{
    return p[0] | (uint32_t)p[1] << 8 | (uint32_t)p[2] << 16 | (uint32_t)p[3] << 24;
}

static void store_number(uint8_t *p, uint32_t number)
{
    for (int k = 0; k < NUMBER_SIZE; k++)
        p[k] = (uint8_t)(number >> 8 * k);
}

static void store_text(uint8_t *p, const uint8_t *text, size_t len)
{
    store_number(p, (uint32_t)len);
    memcpy(p + NUMBER_SIZE, text, len);
}

static fault read_visit(struct reader *r, struct outcome *o)
{
    if (!KEY(r, "visit="))
        return FLOODRAFTER_SPELLING;
    return read_list(r, &o->visit, 1, NUMBER_MAX);
}

static fault read_verdict(struct reader *r, struct outcome *o)
{
    if (!KEY(r, "verdict="))
        return FLOODRAFTER_SPELLING;
    if (TAKE(r, "spent\n"))
        o->verdict = SPENT;
    else if (TAKE(r, "unique\n"))
        o->verdict = UNIQUE;
    else if (TAKE(r, "none\n"))
        o->verdict = NONE;
    else if (TAKE(r, "stalled\n"))
        o->verdict = STALLED;
    else
        return FLOODRAFTER_SPELLING;
    return FLOODRAFTER_DONE;
}

/* The lines of a result text, most of them spelled as a job's. n is that of the job, so that only lists of n numbers are
 * read. */
static bool read_result_lines(struct reader *r, struct job *lines, struct outcome *o)
{
    return read_job_number(r, lines) == FLOODRAFTER_DONE && read_visit(r, o) == FLOODRAFTER_DONE &&
           read_verdict(r, o) == FLOODRAFTER_DONE && read_steps(r, lines) == FLOODRAFTER_DONE &&
           read_low_ends(r, lines) == FLOODRAFTER_DONE && read_high_ends(r, lines) == FLOODRAFTER_DONE;
}

/* "The reading a right result text", "the same job number and the same n", "the reading's steps are at most the job's
 * allowance" */
static bool read_reading(const uint8_t *text, size_t len, const struct job *job, struct outcome *o)
{
    struct job lines;
    struct reader r = {.at = text, .end = text + len};
    lines.n = job->n;
    if (len == 0 || r.end[-1] != '\n' || !read_result_lines(&r, &lines, o) || r.at != r.end)
        return false;
    o->steps = lines.steps;
    for (size_t i = 0; i < job->n; i++)
        o->box[i] = (struct interval){lines.lo[i], lines.hi[i]};
    return lines.number == job->number && lines.steps <= job->steps;
}

/* "Each slot is free, which is that the length of its job text is 0, or holds a visit": false where it does neither. */
static bool read_room(const uint8_t *slot, int64_t last, struct room *room)
{
    size_t reading = load_number(slot), job = load_number(slot + JOB_AT);
    room->taken = job > 0;
    if (!room->taken)
        return true;
    return reading <= FLOODRAFTER_READING_MAX && job <= JOB_MAX &&
           read_job(slot + JOB_AT + NUMBER_SIZE, job, &room->job).fault == FLOODRAFTER_DONE &&
           read_reading(slot + NUMBER_SIZE, reading, &room->job, &room->reading) && 1 <= room->reading.visit &&
           room->reading.visit <= last;
}

/* Reads all slots, that of a call into `shown`; false where the bytes are too few or not of the form. */
static bool read_table(const uint8_t *table, size_t table_len, uint64_t slot, struct room *shown)
{
    struct room other;
    if (table_len < FLOODRAFTER_TABLE || load_number(table) > NUMBER_MAX)
        return false;
    for (size_t k = 0; k < FLOODRAFTER_ROOMS; k++) {
        if (!read_room(table + slot_at(k), load_number(table), k == slot ? shown : &other))
            return false;
    }
    return true;
}

/* "First 16", "15 for a slot or visit not open, next" */
static fault find(const uint8_t *table, size_t table_len, uint64_t slot, uint64_t visit, struct room *room)
{
    room->taken = false;
    if (!read_table(table, table_len, slot, room))
        return FLOODRAFTER_TABLE_BROKEN;
    return room->taken && (uint64_t)room->reading.visit == visit ? FLOODRAFTER_DONE : FLOODRAFTER_NOT_OPEN;
}

floodrafter_answer peer_room_clear(uint8_t *table, size_t table_len)
{
    if (table_len < FLOODRAFTER_TABLE)
        return (floodrafter_answer){.fault = FLOODRAFTER_TABLE_BROKEN};
    memset(table, 0, FLOODRAFTER_TABLE);
    return (floodrafter_answer){.fault = FLOODRAFTER_DONE};
}

static size_t lowest_free(const uint8_t *table)
{
    size_t k = 0;
    while (k < FLOODRAFTER_ROOMS && load_number(table + slot_at(k) + JOB_AT) > 0)
        k++;
    return k;
}

/* A visit begins: its reading is spent, with no steps and the job's own box. */
static void put_visit(uint8_t *slot, struct room *room, uint32_t visit, const uint8_t *text, size_t text_len)
{
    uint8_t reading[RESULT_MAX];
    room->reading.visit = visit;
    room->reading.verdict = SPENT;
    room->reading.steps = 0;
    begin_job(&room->job, room->reading.box);
    store_text(slot, reading, put_result(reading, &room->job, &room->reading));
    store_text(slot + JOB_AT, text, text_len);
}

floodrafter_opened peer_room_open(uint8_t *table, size_t table_len, const uint8_t *text, size_t text_len)
{
    struct room room;
    if (!read_table(table, table_len, FLOODRAFTER_ROOMS, &room))
        return (floodrafter_opened){.fault = FLOODRAFTER_TABLE_BROKEN};
    floodrafter_answer read = read_job(text, text_len, &room.job);
    if (read.fault != FLOODRAFTER_DONE)
        return (floodrafter_opened){.fault = read.fault, .line = read.line};
    size_t slot = lowest_free(table);
    if (slot == FLOODRAFTER_ROOMS)
        return (floodrafter_opened){.fault = FLOODRAFTER_FULL};
    uint32_t visit = load_number(table) + 1;
    if (visit > FLOODRAFTER_VISIT_MAX)
        return (floodrafter_opened){.fault = FLOODRAFTER_VISITS};
    store_number(table, visit);
    put_visit(table + slot_at(slot), &room, visit, text, text_len);
    return (floodrafter_opened){.slot = slot, .visit = visit};
}

/* "A step call moves one visit's job by one step": a run of one step, on the box so far. */
static void do_step(struct room *room)
{
    int64_t before = room->reading.steps;
    struct interval starting[UNKNOWNS_MAX];
    begin_job(&room->job, starting);
    room->job.steps = 1;
    run_on_box(&room->job, &room->reading);
    room->reading.steps += before;
}

/* "answers with the reading after it and changes nothing on a finished one", "then 7 for the result text" */
floodrafter_answer peer_room_step(uint8_t *table, size_t table_len, uint64_t slot, uint64_t visit, uint8_t *out,
                                  size_t out_len)
{
    struct room room;
    uint8_t reading[RESULT_MAX];
    fault f = find(table, table_len, slot, visit, &room);
    if (f != FLOODRAFTER_DONE)
        return (floodrafter_answer){.fault = f};
    if (room.reading.verdict == SPENT && room.reading.steps < room.job.steps)
        do_step(&room);
    size_t len = put_result(reading, &room.job, &room.reading);
    if (out_len < len)
        return (floodrafter_answer){.fault = FLOODRAFTER_SHORT_BUFFER};
    memcpy(out, reading, len);
    store_text(table + slot_at(slot), reading, len);
    return (floodrafter_answer){.len = len};
}

floodrafter_answer peer_room_reading(const uint8_t *table, size_t table_len, uint64_t slot, uint64_t visit,
                                     uint8_t *out, size_t out_len)
{
    struct room room;
    fault f = find(table, table_len, slot, visit, &room);
    if (f != FLOODRAFTER_DONE)
        return (floodrafter_answer){.fault = f};
    const uint8_t *reading = table + slot_at(slot);
    size_t len = load_number(reading);
    if (out_len < len)
        return (floodrafter_answer){.fault = FLOODRAFTER_SHORT_BUFFER};
    memcpy(out, reading + NUMBER_SIZE, len);
    return (floodrafter_answer){.len = len};
}

floodrafter_answer peer_room_close(uint8_t *table, size_t table_len, uint64_t slot, uint64_t visit)
{
    struct room room;
    fault f = find(table, table_len, slot, visit, &room);
    if (f == FLOODRAFTER_DONE)
        memset(table + slot_at(slot), 0, SLOT_SIZE);
    return (floodrafter_answer){.fault = f};
}
