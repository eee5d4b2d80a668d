/*
 * Ticks as dates and clocks show them.
 */
#ifndef HOST_MOMENT_H
#define HOST_MOMENT_H

#include "rigcactus.h"

/* A moment as a calendar and a clock show it. */
struct moment {
    int year;      /* 0 to 10000: an offset can move a tick into the year before 0001, which is 0 here, or into the year after 9999, at whose start 9999 ends */
    int month;     /* 1 to 12 */
    int day;       /* 1 to 31 */
    int weekday;   /* 0 to 6, from Monday on */
    int hour;
    int minute;
    int second;
    int fraction;  /* of the second, in ticks: 0 to 9999 */
};

/*
 * What calendar and clock show at a tick, at an offset from UTC in minutes. For ticks that the library gives, and offsets that it accepts.
 */
struct moment moment_at(int64_t tick, int offset);

#endif
