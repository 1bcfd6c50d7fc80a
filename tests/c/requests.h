/* The files that the program's cases stand in: requests, each a line `OP ARGS.. LENGTH` and LENGTH bytes, and answers, each a line with its length and
 * its bytes. */
#ifndef REQUESTS_H
#define REQUESTS_H

#include <stdbool.h>
#include <stddef.h>
#include <stdint.h>

#include "floodrafter.h"

struct bytes {
    const uint8_t *at;
    size_t len;
};

/* `OP LENGTH`, `parts L1,L2,.. LENGTH`, `image LO HI LENGTH`, `decide N LO HI KLO KHI LENGTH`,
 * `halve DEPTH ROOM LENGTH`, or of a table of rooms `step SLOT VISIT LENGTH`, `close SLOT VISIT LENGTH` or
 * `reading SLOT VISIT ROOM LENGTH`. What a line does not name is zero, and so is a place that a list leaves out. */
struct request {
    char word[8];
    const char *lengths; /* L1,L2,.. and what follows in the line */
    bool boxed;          /* LO and HI are there */
    size_t n;            /* the greatest there is where the line's number is greater, as for slot and visit */
    floodrafter_box x, k;
    int64_t depth;
    uint64_t slot, visit;
    size_t room; /* how many boxes the list can hold, or bytes the buffer of a reading */
    struct bytes text;
};

/* Ends the program with a message and status 2. Each function below does so where the file is not what it should be. */
_Noreturn void broken(const char *what);

struct bytes whole_file(const char *path);

/* Cuts off the next bytes, or the next line with its line feed. */
struct bytes cut(struct bytes *from, size_t len);
const char *cut_line(struct bytes *from);

/* Takes the next request; false where none is left. */
bool next_request(struct bytes *requests, struct request *r);

struct bytes next_answer(struct bytes *answers);

/* The request is a call on the table of rooms: clear, open, step, reading or close. */
bool is_room_call(const struct request *r);

/* A text that is cut into parts. */
struct cuts {
    struct bytes rest;   /* what is left of it */
    const char *lengths; /* those of the next parts, L1,L2,..; null where none is left */
    size_t after;        /* the length of each part after them */
};

/* The parts that a request's line names: one past the end of the text is empty, the rest is the last part. */
struct cuts cuts_of(const struct request *r);

/* Takes the next part; false where none is left. */
bool next_part(struct cuts *c, struct bytes *part);

#endif
