/*
 * A day's totals as a C programmer would keep them without Rigcactus: an expat parse of each record, whose handler finds value and
 * currency, `strtod` for the value, and an array of sums by currency for each desk. Nothing is judged but the markup and that both are there.
 */
#ifndef TOTALS_EXPAT_H
#define TOTALS_EXPAT_H

#include <stdbool.h>
#include <stddef.h>

enum { MOST_SUMS = 16 };

/* What a desk's day comes to: the records added, and sums by currency. */
struct expat_day {
    size_t added, count;
    struct {
        char currency[4];
        double sum;
    } sums[MOST_SUMS];
};

/* Makes the parser, which is used again for each record. False if there is no memory. */
bool expat_begin(void);

/* Adds a record. False if it is not well-formed, is no amount, or has a currency for which there is no sum left. */
bool expat_add(struct expat_day *day, const char *record, size_t length);

#endif
