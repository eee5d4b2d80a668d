/*
 * Comparing two records as a C programmer would without Rigcactus: an expat parse of each, whose handler keeps the attributes that count,
 * and a comparison of what was kept.
 */
#ifndef COMPARE_EXPAT_H
#define COMPARE_EXPAT_H

#include <stdbool.h>
#include <stddef.h>

/* Makes the parser. False if there is no memory. */
bool expat_begin(void);

/*
 * One of enum rigcactus_comparisons, or 0 if a record is not well-formed or the types differ. Times count as the same only if they are
 * written the same, and nothing is judged but the markup.
 */
int expat_compare(const char *first, size_t first_length, const char *second, size_t second_length);

#endif
