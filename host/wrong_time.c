#include "wrong_time.h"

#include "moment.h"
#include "times.h"

#include <string.h>

/* Where the parts of a timestamp begin: the year has four digits, each other part two. */
enum { YEAR = 0, MONTH = 4, DAY = 6, HOUR = 8, MINUTE = 10, SECOND = 12, FRACTION = 14 };

bool is_for_time(int refusal)
{
    return refusal == RIGCACTUS_DATE || refusal == RIGCACTUS_CLOCK || refusal == RIGCACTUS_ZONE;
}

/* Whether a text gets a refusal as a timestamp. The agreed offset may be any allowed one: none of the three refusals depends on it. */
static bool is_refused(struct slice text, int refusal)
{
    int64_t tick;
    return rigcactus_refusal(rigcactus_tick(text.bytes, text.length, 0, &tick)) == refusal;
}

/*
 * Where a record is refused so, no refusal that comes before applies to it. It is then one element by the markup rules, its type is TS, IVL_TS
 * or a set, its attributes and children are all allowed, and each attribute named `value` is a timestamp of the right form. One of them gets
 * this refusal. They hold no references: none stands for a digit, a point or a sign.
 */
bool find_wrong_time(struct slice record, int refusal, struct slice *timestamp)
{
    struct slice tag;
    if (is_for_time(refusal))
        while (take_tag(&record, &tag))
            if (find_attribute(tag, "value", timestamp) && is_refused(*timestamp, refusal))
                return true;
    *timestamp = (struct slice){record.bytes, 0};
    return false;
}

/* Where the part begins that a timestamp gets a refusal for: the shortest beginning that gets it ends with this part. FRACTION if none does. */
static size_t wrong_part(struct slice timestamp, int refusal)
{
    for (size_t end = MONTH; end <= FRACTION && end <= timestamp.length; end += 2)
        if (is_refused((struct slice){timestamp.bytes, end}, refusal))
            return end == MONTH ? YEAR : end - 2;
    return FRACTION;
}

/* Adds a day that its month does not have. The year and the month are good, so they are accepted, and their tick says which they are. */
static void add_wrong_day(struct text *text, const char *digits)
{
    int64_t tick = 0;
    rigcactus_tick((const uint8_t *)digits, DAY, 0, &tick);
    bool is_zero = memcmp(digits + DAY, "00", 2) == 0;
    add(text, is_zero ? "the day %.2s of " : "the date %.2s ", digits + DAY);
    add_month(text, moment_at(tick, 0));
    add(text, is_zero ? " is on no calendar: days go from 01 on" : " is on no calendar");
}

/* Adds the part of a date or a clock that is wrong, with the parts that it belongs to. All digits that are added are within the timestamp. */
static bool add_wrong_part(struct text *text, int refusal, struct slice timestamp)
{
    const char *digits = (const char *)timestamp.bytes;
    switch (wrong_part(timestamp, refusal)) {
    case YEAR:
        add(text, "the year %.4s is on no calendar: years go from 0001 to 9999", digits);
        return true;
    case MONTH:
        add(text, "the month %.2s of %.4s is on no calendar: months go from 01 to 12", digits + MONTH, digits);
        return true;
    case DAY:
        add_wrong_day(text, digits);
        return true;
    case HOUR:
        add(text, "the hour %.2s is on no clock: hours go from 00 to 23", digits + HOUR);
        return true;
    case MINUTE:
        add(text, "the time %.2s:%.2s is on no clock: minutes go from 00 to 59", digits + HOUR, digits + MINUTE);
        return true;
    case SECOND:
        add(text, "the time %.2s:%.2s:%.2s is on no clock: seconds go from 00 to 59", digits + HOUR, digits + MINUTE, digits + SECOND);
        return true;
    default:
        return false;
    }
}

/* Adds an offset that is wrong: its sign and hours, and its minutes if they are written. */
static void add_wrong_offset(struct text *text, struct slice timestamp)
{
    struct slice minutes = timestamp, hours;
    take_until(&minutes, "+-");
    hours = take(&minutes, 3);
    add(text, "the offset %.*s%s%.*s is of no time zone: offsets go up to 14:00, with minutes from 00 to 59", (int)hours.length,
        (const char *)hours.bytes, minutes.length > 0 ? ":" : "", (int)minutes.length, (const char *)minutes.bytes);
}

bool add_wrong_time(struct text *text, int refusal, struct slice timestamp)
{
    if (!is_for_time(refusal) || !is_refused(timestamp, refusal))
        return false;
    if (refusal != RIGCACTUS_ZONE)
        return add_wrong_part(text, refusal, timestamp);
    add_wrong_offset(text, timestamp);
    return true;
}
