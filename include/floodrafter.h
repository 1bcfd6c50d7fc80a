/* Floodrafter for C: job texts answered, at once or in the parts that they arrive in, their steps shown one by one, all their closing positions listed, job
 * and result texts checked, explained and written again, and the jobs of eight rooms kept in one table and moved step by step.
 *
 * Link with target/staticlib/libfloodrafter_c.a (x86-64), which `tools/build archive` proves and writes. docs/C.md has an example.
 *
 * Every function takes any bytes, lengths and numbers. It keeps no state, allocates nothing and calls nothing but memcpy and memset, so that threads may call it
 * as they like, but for those that share a table of rooms: calls on one table come one after another. What is known of a text that arrives in parts, and the
 * table, the caller carries from call to call.
 * What it needs of its caller: a pointer that is not null, also where its length is 0, with at least that many bytes (of `list`: numbers) behind it, `out` and
 * `list` apart from `text`, and a table apart from both. */
#ifndef FLOODRAFTER_H
#define FLOODRAFTER_H

#include <stddef.h>
#include <stdint.h>

#ifdef __cplusplus
extern "C" {
#endif

/* The longest text that is taken. A buffer of this size is enough for every answer. */
#define FLOODRAFTER_TEXT_MAX 4096

/* The longest sentence beside a fault. */
#define FLOODRAFTER_SENTENCE_MAX 256

/* The most unknowns of a job: the places of a box. */
#define FLOODRAFTER_N 6

/* The most terms of an equation. */
#define FLOODRAFTER_TERMS_MAX 16

/* The most halvings of a box, one within the other. */
#define FLOODRAFTER_DEPTH_MAX 8

/* The most boxes that so many halvings list: two to the power of the depth. */
#define FLOODRAFTER_BOXES_MAX 256

/* The numbers of a listed box, whatever n is: 1 for unique or 0 for open, FLOODRAFTER_N low ends, FLOODRAFTER_N high ends. */
#define FLOODRAFTER_LISTED (1 + 2 * FLOODRAFTER_N)

/* The rooms of a table: slots are counted from 0 on. */
#define FLOODRAFTER_ROOMS 8

/* The bytes of a table of rooms. */
#define FLOODRAFTER_TABLE 18436

/* The last visit number that a table hands out; the first is 1. */
#define FLOODRAFTER_VISIT_MAX 999999999

/* A buffer of this size is enough for every reading. */
#define FLOODRAFTER_READING_MAX 252

/* The faults of documents 01 and 02. */
enum floodrafter_fault {
    FLOODRAFTER_DONE = 0,
    FLOODRAFTER_LONG_TEXT = 1,    /* the text is over FLOODRAFTER_TEXT_MAX bytes */
    FLOODRAFTER_SPELLING = 2,     /* a line is missing, extra or wrongly spelled, or a list has the wrong count */
    FLOODRAFTER_UNKNOWNS = 3,     /* n is not 1 to FLOODRAFTER_N */
    FLOODRAFTER_BEYOND = 4,       /* a number is beyond its size; the line is 0 for a number of a box or of a state handed in */
    FLOODRAFTER_CROSSED = 5,      /* a low end is above its high end; the line is that of the high ends, or 0 for a box handed in */
    FLOODRAFTER_TERMS = 6,        /* an eq line has over 16 terms, a zero coefficient, a degree over 3 or the wrong order */
    FLOODRAFTER_SHORT_BUFFER = 7, /* the answer is longer than `out`, or `list` is too short for the depth */
    FLOODRAFTER_STEPS = 8,        /* steps is not 0 to 1,000; with line 0, a depth is not 0 to FLOODRAFTER_DEPTH_MAX */
    FLOODRAFTER_PIN = 9,          /* a pin line of an eigen job says n, or a number that is not 1 to n */
    FLOODRAFTER_FULL = 13,        /* all slots of the table are taken */
    FLOODRAFTER_VISITS = 14,      /* the table has handed out visit FLOODRAFTER_VISIT_MAX */
    FLOODRAFTER_NOT_OPEN = 15,    /* the slot does not hold the visit: it is not one of the table, free, or holds another */
    FLOODRAFTER_TABLE_BROKEN = 16 /* the table has fewer than FLOODRAFTER_TABLE bytes or, clearing apart, not the form of docs/ROOMS.md */
};

/* What became of a text. */
typedef struct floodrafter_answer {
    uint64_t fault; /* an enum floodrafter_fault */
    uint64_t line;  /* the line of the fault, counted from 1; 0 for faults 1, 7 and 13 to 16, for fault 4 of a state handed in, and where there is none */
    size_t len;     /* how many bytes were written from the start of `out` on; 0 beside a fault */
} floodrafter_answer;

/* Answers the job text `text` by its result text in `out`.
 * Faults: 1 to 6, 8 and 9 of the job text, then 7. A fault writes nowhere; the bytes of `out` beyond the answer are the old ones. */
floodrafter_answer floodrafter_solve(const uint8_t *text, size_t text_len, uint8_t *out, size_t out_len);

/* Reads the job text `text` and writes it again into `out`: the same bytes.
 * Faults: 1 to 6, 8 and 9 of the job text, then 7. A fault writes nowhere; the bytes of `out` beyond the text are the old ones. */
floodrafter_answer floodrafter_rewrite_job(const uint8_t *text, size_t text_len, uint8_t *out, size_t out_len);

/* The same for a result text. Faults: 1 to 5 and 8 of the result text, then 7. */
floodrafter_answer floodrafter_rewrite_result(const uint8_t *text, size_t text_len, uint8_t *out, size_t out_len);

/* Checks the job text `text` and writes nothing: `len` is 0. Faults: 1 to 6, 8 and 9. */
floodrafter_answer floodrafter_check_job(const uint8_t *text, size_t text_len);

/* Checks the result text `text` and writes nothing: `len` is 0. Faults: 1 to 5 and 8. */
floodrafter_answer floodrafter_check_result(const uint8_t *text, size_t text_len);

/* Writes into `out` a plain sentence for whoever typed the job text `text`: what stands at its fault and what is expected there.
 * Returns the sentence's length, at most FLOODRAFTER_SENTENCE_MAX and 0 where the text has no fault. It is ASCII and has no line feed and no 0 at
 * its end. Of a sentence that is longer than `out` only the room is written; the bytes of `out` beyond it are the old ones. */
size_t floodrafter_explain_job(const uint8_t *text, size_t text_len, uint8_t *out, size_t out_len);

/* The same for a result text. */
size_t floodrafter_explain_result(const uint8_t *text, size_t text_len, uint8_t *out, size_t out_len);

/* All closing positions of a job: how many boxes were listed. */
typedef struct floodrafter_listing {
    uint64_t fault; /* an enum floodrafter_fault */
    uint64_t line;  /* the line of the fault, counted from 1; 0 for fault 1, for the depth, for the list, and where there is none */
    size_t n;       /* the unknowns of the job; 0 beside a fault */
    size_t boxes;   /* how many boxes were listed; 0 beside a fault */
} floodrafter_listing;

/* Halves the starting box of the job text `text`, at most `depth` times one within the other, and lists what is left: each box FLOODRAFTER_LISTED numbers
 * from the start of `list` on, its places past n zero. Every fraction zero of the starting box lies in a listed box, and a box that is listed as unique
 * holds at most one. `list_len` counts numbers: FLOODRAFTER_LISTED << depth of them are enough.
 * Faults: 1 to 6, 8 and 9 of the job text; then, with line 0, 8 for a depth that is not 0 to FLOODRAFTER_DEPTH_MAX, and 7 where `list` can't hold two to
 * the power of the depth boxes. A fault writes nowhere; the numbers of `list` past the last listed box are the old ones. */
floodrafter_listing floodrafter_halve(const uint8_t *text, size_t text_len, int64_t depth, int64_t *list, size_t list_len);

/* The steps of a job, one by one: floodrafter_start gives the box that the first begins on, floodrafter_image the image K of a box, and
 * floodrafter_decide what the two decide: a verdict, or the box of the next step. The run that floodrafter_solve does is made of the same two. */

/* A box: the low and the high ends of its sides, in marks. Places past n are not looked at where a box is handed in, and zero where one is answered. */
typedef struct floodrafter_box {
    int64_t lo[FLOODRAFTER_N];
    int64_t hi[FLOODRAFTER_N];
} floodrafter_box;

/* n, and a box of n unknowns: a job's starting box, or an image. */
typedef struct floodrafter_shown {
    uint64_t fault;      /* an enum floodrafter_fault */
    uint64_t line;       /* the line of the fault, counted from 1; 0 for fault 1 and for faults of the box handed in, and where there is none */
    size_t n;            /* 0 beside a fault */
    floodrafter_box box; /* all zero beside a fault */
} floodrafter_shown;

/* What a step decides. */
enum floodrafter_verdict {
    FLOODRAFTER_NONE = 0,    /* some coordinate of K does not meet that of X; the box is X */
    FLOODRAFTER_UNIQUE = 1,  /* K lies inside X and touches no end of it; the box is K */
    FLOODRAFTER_STALLED = 2, /* K cut with X is X itself; the box is X */
    FLOODRAFTER_NEXT = 3     /* nothing yet; the box is K cut with X, on which the next step begins */
};

/* What X and K decide, and the box that they leave. */
typedef struct floodrafter_move {
    uint64_t fault;      /* an enum floodrafter_fault */
    uint64_t line;       /* always 0: no text line carries these faults */
    uint64_t verdict;    /* an enum floodrafter_verdict; 0 beside a fault, where it says nothing */
    floodrafter_box box; /* all zero beside a fault */
} floodrafter_move;

/* The n and the starting box of the job text `text`. Faults: 1 to 6, 8 and 9 of the job text. */
floodrafter_shown floodrafter_start(const uint8_t *text, size_t text_len);

/* The n of the job text `text` and the image K of the box `x`, which need not be the job's own.
 * Faults: 1 to 6, 8 and 9 of the job text; then of `x`, with line 0, 4 for an end beyond -262,144 to 262,144 and 5 for ends crossed. */
floodrafter_shown floodrafter_image(const uint8_t *text, size_t text_len, floodrafter_box x);

/* What the box `x` and the image `k` decide, both of n unknowns. An image may be any two ends in each coordinate from -2^46 to 2^46.
 * Faults, in this order: 3 for n, 4 and 5 of `x` as above, 4 for an end of `k` beyond its range, 5 for ends of `k` crossed. */
floodrafter_move floodrafter_decide(size_t n, floodrafter_box x, floodrafter_box k);

/* A job text in parts, as packets arrive: floodrafter_begin, then floodrafter_take for each part, and at the end of the text floodrafter_end_check,
 * floodrafter_end_job or floodrafter_end_solve. The answer is that of the whole text at once, wherever the cuts fall.
 * The state between two calls is the caller's: a plain struct without pointers, which can be copied, kept, sent, or dropped at any time. It holds one line
 * and what the lines before it say, never the text. */

/* A term of an equation: its coefficient, in marks, and an exponent for each unknown. */
typedef struct floodrafter_term {
    int64_t coef;
    uint8_t exps[FLOODRAFTER_N];
} floodrafter_term;

/* An equation: the first `count` of the terms. */
typedef struct floodrafter_equation {
    size_t count;
    floodrafter_term terms[FLOODRAFTER_TERMS_MAX];
} floodrafter_equation;

/* A row of a matrix. */
typedef struct floodrafter_row {
    int64_t at[FLOODRAFTER_N];
} floodrafter_row;

/* What the lines so far say, in numbers alone. What no line has said yet, and places past n, are zero. */
typedef struct floodrafter_read {
    uint64_t fault;  /* that of the first bad line, an enum floodrafter_fault, 0 where there is none: at most 9, the last that a text has */
    uint64_t line;   /* the first bad line, counted from 1, 0 where there is none: at most 9 + FLOODRAFTER_N */
    uint64_t next;   /* the next line: job 1, kind 2, n 3, pin (or lo in its place) 4, lo 5, hi 6, inv 7, steps 8, and from 9 on those of the system;
                      * 0 where no line is left: at most 8 + FLOODRAFTER_N */
    uint64_t number; /* the job number */
    uint64_t kind;   /* 0 poly, 1 linear, 2 eigen: at most 2 */
    size_t n;        /* at most FLOODRAFTER_N */
    size_t pin;      /* the pinned coordinate of an eigen job, counted from 1; 0 for the other kinds */
    int64_t lo[FLOODRAFTER_N];
    int64_t hi[FLOODRAFTER_N];
    floodrafter_row inv[FLOODRAFTER_N];
    uint64_t steps;
    floodrafter_equation eqs[FLOODRAFTER_N]; /* the system of a poly job */
    floodrafter_row rows[FLOODRAFTER_N];     /* the matrix of a linear or eigen job */
    int64_t right[FLOODRAFTER_N];            /* the right side of a linear job */
} floodrafter_read;

/* The state of a text that arrives in parts. Where one of the numbers with an "at most", here or in `read`, is beyond it, every call below refuses the
 * state by fault 4, line 0. A state that floodrafter_begin or floodrafter_take gave is never refused; one that no text leads to is safe too. */
typedef struct floodrafter_parts {
    size_t size;                         /* how many bytes came: at most FLOODRAFTER_TEXT_MAX + 1, where the count stops */
    size_t held;                         /* how many of them are of the line that has not ended: at most `size`, and at most FLOODRAFTER_TEXT_MAX */
    floodrafter_read read;               /* what the lines before it say */
    uint8_t bytes[FLOODRAFTER_TEXT_MAX]; /* that line from its start; past `held` any bytes */
} floodrafter_parts;

/* A state, and whether the one that was handed in is refused. */
typedef struct floodrafter_taken {
    uint64_t fault; /* FLOODRAFTER_DONE, or FLOODRAFTER_BEYOND where a number of the state is beyond its limit */
    uint64_t line;  /* always 0 */
    floodrafter_parts parts;
} floodrafter_taken;

/* The state before the first part. */
floodrafter_parts floodrafter_begin(void);

/* The state after the next part of the text, of any length, zero included. Fault 4, line 0, hands the state back as it was.
 * A fault of the text waits for the end: bytes are counted to the end, and fault 1 comes first. */
floodrafter_taken floodrafter_take(floodrafter_parts parts, const uint8_t *part, size_t part_len);

/* The text has ended: its fault, as floodrafter_check_job finds it in the whole text; `len` is 0. No part at all is the empty text, fault 2 in line 1.
 * Faults: 4, line 0, of the state; then 1 to 6, 8 and 9 of the job text. */
floodrafter_answer floodrafter_end_check(floodrafter_parts parts);

/* The text has ended: it is written again into `out`, as floodrafter_rewrite_job does with the whole text.
 * Faults: 4, line 0, of the state; then 1 to 6, 8 and 9 of the job text; then 7. A fault writes nowhere; the bytes of `out` beyond the text are the old ones. */
floodrafter_answer floodrafter_end_job(floodrafter_parts parts, uint8_t *out, size_t out_len);

/* The text has ended: its job is answered by the result text in `out`, as floodrafter_solve does with the whole text. Faults and `out` as above. */
floodrafter_answer floodrafter_end_solve(floodrafter_parts parts, uint8_t *out, size_t out_len);

/* Eight rooms: a table holds a job and its reading for each room, one visit to a room. floodrafter_room_clear makes lent bytes a table without visits;
 * floodrafter_room_open begins a visit and hands out a slot and a visit number; whoever shows these two moves the visit's job by one step at a time, reads
 * where it stands, and closes it. A slot is used again and a visit number, up to the next clearing, is not, so that a holder who comes late is refused.
 * A reading is a result text with the visit's number. A visit that is not decided yet reads as spent, with its steps and its box so far. It is finished when
 * it is decided or its steps are the job's allowance: then, in a table that these calls alone have changed since its clearing, it reads as the result of
 * floodrafter_solve but for the visit's number.
 *
 * The table is the caller's: FLOODRAFTER_TABLE bytes without pointers, which can be copied, kept and sent. docs/ROOMS.md has their form; every call that is
 * not refused by 16 leaves it whole. What stands behind them is no part of it, and no call changes it. `table`, `text` and `out` do not overlap.
 * A fault changes no byte of the table and writes nowhere. Its line is 0 but for the faults of the job text. */

/* What became of an opening: who holds the visit shows `slot` and `visit` from now on. */
typedef struct floodrafter_opened {
    uint64_t fault; /* an enum floodrafter_fault */
    uint64_t line;  /* the line of the fault, counted from 1; 0 for faults 1, 13, 14 and 16, and where there is none */
    uint64_t slot;  /* 0 to FLOODRAFTER_ROOMS - 1; 0 beside a fault, where it says nothing */
    uint64_t visit; /* 1 to FLOODRAFTER_VISIT_MAX; 0 beside a fault */
} floodrafter_opened;

/* All rooms are free, visits count from 1 again, and all bytes of the table are zero; `len` is 0. Any bytes can be made a table.
 * Faults: 16, for fewer than FLOODRAFTER_TABLE bytes. */
floodrafter_answer floodrafter_room_clear(uint8_t *table, size_t table_len);

/* A visit with the job text `text` begins in the lowest free slot. Its number is one more than the last.
 * Faults, in this order: 16; 1 to 6, 8 and 9 of the job text; 13; 14. */
floodrafter_opened floodrafter_room_open(uint8_t *table, size_t table_len, const uint8_t *text, size_t text_len);

/* Does one step of the visit's job and writes the reading after it into `out`; on a finished visit, the reading alone, and the table stays as it is.
 * Faults, in this order: 16; 15; 7 where the reading after the step is longer than `out`. The bytes of `out` beyond the reading are the old ones. */
floodrafter_answer floodrafter_room_step(uint8_t *table, size_t table_len, uint64_t slot, uint64_t visit, uint8_t *out, size_t out_len);

/* Writes the visit's reading into `out`. Faults, in this order: 16; 15; 7. The bytes of `out` beyond the reading are the old ones. */
floodrafter_answer floodrafter_room_reading(const uint8_t *table, size_t table_len, uint64_t slot, uint64_t visit, uint8_t *out, size_t out_len);

/* The visit ends and its slot is free; `len` is 0. Faults, in this order: 16; 15. */
floodrafter_answer floodrafter_room_close(uint8_t *table, size_t table_len, uint64_t slot, uint64_t visit);

/* Writes into `out` a plain sentence for whoever showed a slot and a visit, or opened a room: what fault 7, 13, 14, 15 or 16 of these calls says.
 * Returns the sentence's length, and 0 for every other number: a fault of the job text has its sentence from floodrafter_explain_job. Length, bytes and
 * `out` are as there. */
size_t floodrafter_room_explain(uint64_t fault, uint8_t *out, size_t out_len);

#ifdef __cplusplus
}
#endif

#endif
