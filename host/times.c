#include "times.h"

#include <inttypes.h>

static const char *const weekdays[] = {"Monday", "Tuesday", "Wednesday", "Thursday", "Friday", "Saturday", "Sunday"};

static const char *const months[] = {"January", "February", "March",     "April",   "May",      "June",
                                     "July",    "August",   "September", "October", "November", "December"};

void add_month(struct text *text, struct moment moment)
{
    add(text, "%s %04d", months[moment.month - 1], moment.year);
}

/* Adds the day of a moment. */
static void add_day(struct text *text, struct moment moment)
{
    add(text, "%s %d ", weekdays[moment.weekday], moment.day);
    add_month(text, moment);
}

/* Adds a day and a time of day. Seconds are written where they are not 0, and so is their fraction. */
static void add_moment(struct text *text, int64_t tick, int offset)
{
    struct moment moment = moment_at(tick, offset);
    add_day(text, moment);
    add(text, " %02d:%02d", moment.hour, moment.minute);
    if (moment.second != 0 || moment.fraction != 0)
        add(text, ":%02d", moment.second);
    if (moment.fraction != 0)
        add(text, ".%04d", moment.fraction);
}

/* Adds a count of a unit with the separator before it, or nothing if there is none. Gives the separator for the next one back. */
static const char *add_count(struct text *text, const char *separator, int64_t count, const char *unit)
{
    if (count == 0)
        return separator;
    add(text, "%s%" PRId64 " %s%s", separator, count, unit, count == 1 ? "" : "s");
    return " ";
}

/* Adds how long a count of ticks is, which is 1 or more. A day is 24 hours: an offset does not change on the way. */
static void add_duration(struct text *text, int64_t ticks)
{
    int64_t seconds = ticks / RIGCACTUS_TICKS_PER_SECOND;
    int fraction = (int)(ticks % RIGCACTUS_TICKS_PER_SECOND);
    const char *separator = "";
    separator = add_count(text, separator, seconds / 86400, "day");
    separator = add_count(text, separator, seconds / 3600 % 24, "hour");
    separator = add_count(text, separator, seconds / 60 % 60, "minute");
    if (fraction == 0)
        add_count(text, separator, seconds % 60, "second");
    else
        add(text, "%s%d.%04d seconds", separator, (int)(seconds % 60), fraction);
}

static void add_low(struct text *text, struct rigcactus_stretch stretch, int offset)
{
    if (stretch.low_kind == RIGCACTUS_UNBOUNDED) {
        add(text, "with no beginning,");
        return;
    }
    add(text, stretch.low_kind == RIGCACTUS_CLOSED ? "from " : "from just after ");
    add_moment(text, stretch.low_tick, offset);
}

/* Whether a tick is midnight, and the day that ends then is on the calendar, which begins with year 0001. */
static bool ends_a_day(int64_t tick, int offset)
{
    struct moment moment = moment_at(tick, offset);
    bool is_midnight = moment.hour == 0 && moment.minute == 0 && moment.second == 0 && moment.fraction == 0;
    return is_midnight && moment_at(tick - 1, offset).year > 0;
}

static void add_high(struct text *text, struct rigcactus_stretch stretch, int offset)
{
    if (stretch.high_kind == RIGCACTUS_UNBOUNDED) {
        add(text, " on, with no end");
        return;
    }
    if (stretch.high_kind == RIGCACTUS_OPEN && ends_a_day(stretch.high_tick, offset)) {
        add(text, " to the end of ");
        add_day(text, moment_at(stretch.high_tick - 1, offset));
        return;
    }
    add(text, stretch.high_kind == RIGCACTUS_CLOSED ? " up to and including " : " up to, not including, ");
    add_moment(text, stretch.high_tick, offset);
}

static bool is_one_moment(struct rigcactus_stretch stretch)
{
    return stretch.low_kind == RIGCACTUS_CLOSED && stretch.high_kind == RIGCACTUS_CLOSED && stretch.low_tick == stretch.high_tick;
}

void add_stretch(struct text *text, struct rigcactus_stretch stretch, int offset)
{
    bool has_low = stretch.low_kind != RIGCACTUS_UNBOUNDED, has_high = stretch.high_kind != RIGCACTUS_UNBOUNDED;
    if (!has_low && !has_high) {
        add(text, "at all times, with no beginning and no end");
        return;
    }
    if (is_one_moment(stretch)) {
        add(text, "at ");
        add_moment(text, stretch.low_tick, offset);
        add(text, ", for that moment alone");
        return;
    }
    add_low(text, stretch, offset);
    add_high(text, stretch, offset);
    if (has_low && has_high) {
        add(text, " (");
        add_duration(text, stretch.high_tick - stretch.low_tick);
        add(text, ")");
    }
}

void add_offset(struct text *text, int offset)
{
    int distance = offset < 0 ? -offset : offset;
    add(text, "UTC");
    if (offset != 0)
        add(text, "%c%02d:%02d", offset < 0 ? '-' : '+', distance / 60, distance % 60);
}
