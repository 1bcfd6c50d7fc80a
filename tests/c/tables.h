/* Calls on tables of any bytes, through the header. tests/second/README.md, "Tables of any bytes", says what stands in
 * the two files. */
#ifndef TABLES_H
#define TABLES_H

#include "expect.h"

/* Makes every call of the one file, and holds what it answers and every byte that it leaves to the other. Gives how many
 * there are. */
unsigned long ask_tables(struct bytes calls, struct bytes left);

#endif
