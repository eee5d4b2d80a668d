/*
 * A day's totals: records of money added up by desk and currency, and printed.
 */
#ifndef HOST_TOTALS_H
#define HOST_TOTALS_H

#include "record.h"
#include "rigcactus.h"

/*
 * Adds a record of a desk to a table, and prints a line that says what came of it, with a name for the record before it. The record may be
 * any bytes. Gives back what it is refused for, or RIGCACTUS_ACCEPTED.
 */
int print_added(uint64_t table[RIGCACTUS_TABLE_NUMBERS], uint64_t desk, const char *name, struct slice record, int64_t offset);

/* Prints the report of a desk: how many of its records were added, null and refused, and a line for the total of each of its currencies. */
void print_totals(const uint64_t table[RIGCACTUS_TABLE_NUMBERS], uint64_t desk);

#endif
