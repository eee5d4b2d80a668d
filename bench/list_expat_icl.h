/*
 * Listing a set of times as a C++ programmer would without Rigcactus: an expat parse whose handlers read types, flags and bounds, glibc's
 * strptime and timegm for the bounds, and Boost.ICL's interval_set for the sets.
 */
#ifndef LIST_EXPAT_ICL_H
#define LIST_EXPAT_ICL_H

#include "rigcactus.h"

#include <stdbool.h>

#ifdef __cplusplus
extern "C" {
#endif

/* Makes the parser. False if there is no memory. */
bool icl_begin(void);

/*
 * Writes the stretches that a record means, as many as there is room for, and says how many there are; SIZE_MAX for a record that is not
 * well-formed. Bounds are whole parts of a timestamp in UTC, without a fraction. Nothing is judged but the markup.
 */
size_t icl_list(const char *record, size_t length, struct rigcactus_stretch *stretches, size_t room);

#ifdef __cplusplus
}
#endif

#endif
