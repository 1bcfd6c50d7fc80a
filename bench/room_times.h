/* What the calls on the table of rooms cost, with eight rooms taken and with one: jobs of 1, 2, 4 and 6 unknowns. */
#ifndef ROOM_TIMES_H
#define ROOM_TIMES_H

#include <stdbool.h>
#include <stddef.h>

/* Do both answer every call that is timed alike, and as it should be answered? */
bool same_room_times(void);

/* Prints a row for each call, and one for a call that is refused by 15: what the check of the form costs alone. */
void print_room_times(void);

/* Makes a call for each of the eight rooms, so many times, with eight rooms taken or with one. The word is a call's,
 * `form` for one that is refused by 15, or `copy` for the copies of the table that stand before the calls. False where
 * it is none of them. */
bool do_room_work(int solver, const char *word, size_t taken, long times);

#endif
