/*
 * What is wrong with a time: which timestamp of a record is meant where the record is refused with DATE, CLOCK or ZONE, and the words that name
 * the year, the month, the day, the clock or the offset that there is not.
 */
#ifndef HOST_WRONG_TIME_H
#define HOST_WRONG_TIME_H

#include "record.h"
#include "text.h"

/* Whether a refusal is for a timestamp that is of the right form and says an impossible time: DATE, CLOCK or ZONE. */
bool is_for_time(int refusal);

/*
 * Finds the timestamp that a record is refused for so: the first in it that gets this refusal by itself. The record may be any bytes. Gives
 * false back, and an empty text, if there is none, as for all other refusals.
 */
bool find_wrong_time(struct slice record, int refusal, struct slice *timestamp);

/*
 * Adds what is wrong with a timestamp that gets this refusal, as "the date 30 February 2024 is on no calendar". Gives false back, and adds
 * nothing, for a text that does not get it, as for all other refusals.
 */
bool add_wrong_time(struct text *text, int refusal, struct slice timestamp);

#endif
