/*
 * Stretches of time, and months, in plain words.
 */
#ifndef HOST_TIMES_H
#define HOST_TIMES_H

#include "moment.h"
#include "text.h"

/*
 * Adds the words for a stretch that rigcactus_list gave, by clocks at an offset from UTC in minutes: from when, up to when, whether the
 * moments there are included, and how long that is. `from` is a moment that belongs to the stretch, `from just after` one that does not; `up
 * to and including` and `up to, not including,` are the same for its end. An end at midnight, not included, is `to the end of` the day before.
 */
void add_stretch(struct text *text, struct rigcactus_stretch stretch, int offset);

/* Adds the month of a moment, by its name, and the year: February 2024. */
void add_month(struct text *text, struct moment moment);

/* Adds the words for an offset from UTC in minutes: UTC, or as UTC+02:00. */
void add_offset(struct text *text, int offset);

#endif
