/*
 * Dates and weekdays of the program against those of the C library: the first tick and the last of every day in UTC, and at the offsets
 * farthest from UTC those of the first days, the last, and some between.
 */
#include "moment.h"

#include <inttypes.h>
#include <stdbool.h>
#include <stdio.h>
#include <time.h>

#define TICK_OF_1970 INT64_C(621355968000000)
#define FIRST_TICK INT64_C(-504000000)
/* The start of year 10000, as far west as can be, where a closed high to the end of year 9999 is open. */
#define LAST_TICK INT64_C(3155379480000000)

static int64_t failures = 0;

static void expect(int64_t tick, int offset)
{
    int64_t since = tick - TICK_OF_1970 + offset * 60 * RIGCACTUS_TICKS_PER_SECOND;
    int64_t fraction = (since % RIGCACTUS_TICKS_PER_SECOND + RIGCACTUS_TICKS_PER_SECOND) % RIGCACTUS_TICKS_PER_SECOND;
    time_t seconds = (since - fraction) / RIGCACTUS_TICKS_PER_SECOND;
    struct tm due = *gmtime(&seconds);
    struct moment given = moment_at(tick, offset);

    if (given.year != due.tm_year + 1900 || given.month != due.tm_mon + 1 || given.day != due.tm_mday || (given.weekday + 1) % 7 != due.tm_wday ||
        given.hour != due.tm_hour || given.minute != due.tm_min || given.second != due.tm_sec || given.fraction != fraction) {
        failures++;
        printf("tick %" PRId64 " at offset %d is another moment\n", tick, offset);
    }
}

static void expect_at(int64_t tick, bool at_offsets)
{
    if (tick < FIRST_TICK || tick > LAST_TICK)
        return;
    expect(tick, 0);
    if (at_offsets) {
        expect(tick, -RIGCACTUS_MOST_OFFSET);
        expect(tick, RIGCACTUS_MOST_OFFSET);
    }
}

int main(void)
{
    int64_t first = FIRST_TICK / RIGCACTUS_TICKS_PER_DAY - 1, last = LAST_TICK / RIGCACTUS_TICKS_PER_DAY;
    expect_at(FIRST_TICK, true);
    expect_at(LAST_TICK, true);
    for (int64_t day = first; day <= last && failures < 10; day++) {
        bool at_offsets = day < 1000 || day > last - 1000 || day % 97 == 0;
        expect_at(day * RIGCACTUS_TICKS_PER_DAY, at_offsets);
        expect_at(day * RIGCACTUS_TICKS_PER_DAY + RIGCACTUS_TICKS_PER_DAY - 1, at_offsets);
    }
    printf("%" PRId64 " days\n", last - first + 1);
    return failures > 0;
}
