#include "moment.h"

#include <stdbool.h>

/* 0001-01-01 is a Monday, and 366 days before it, 0000-01-01 is a Saturday. */
enum { FIRST_WEEKDAY = 5 };

static bool is_leap_year(int year)
{
    return year % 4 == 0 && (year % 100 != 0 || year % 400 == 0);
}

/* How many days come before a year, from 0000-01-01 on. */
static int days_before(int year)
{
    return 365 * year + (year + 3) / 4 - (year + 99) / 100 + (year + 399) / 400;
}

static int month_length(int year, int month)
{
    static const int lengths[] = {31, 28, 31, 30, 31, 30, 31, 31, 30, 31, 30, 31};
    return month == 2 && is_leap_year(year) ? 29 : lengths[month - 1];
}

/* The year of a day, from its count of days since 0000-01-01. */
static int year_of(int days)
{
    /* 400 years have 146,097 days. Less a day, the quotient is never too late: it is the year or the one before. */
    int year = 400 * (days - 1) / 146097;
    if (days >= days_before(year + 1))
        return year + 1;
    return year;
}

/* Sets year, month and day from the count of days since 0000-01-01. */
static void set_date(struct moment *moment, int days)
{
    int year = year_of(days), month = 1;
    days -= days_before(year);
    for (; days >= month_length(year, month); month++)
        days -= month_length(year, month);
    moment->year = year;
    moment->month = month;
    moment->day = days + 1;
}

/* Sets the clock from the count of ticks since midnight. */
static void set_clock(struct moment *moment, int ticks)
{
    int seconds = ticks / (int)RIGCACTUS_TICKS_PER_SECOND;
    moment->hour = seconds / 3600;
    moment->minute = seconds / 60 % 60;
    moment->second = seconds % 60;
    moment->fraction = ticks % (int)RIGCACTUS_TICKS_PER_SECOND;
}

struct moment moment_at(int64_t tick, int offset)
{
    /* From 0000-01-01 on. A tick and an offset go below 0001-01-01 by fourteen hours each, so this is not below zero. */
    int64_t since = tick + offset * 60 * RIGCACTUS_TICKS_PER_SECOND + days_before(1) * RIGCACTUS_TICKS_PER_DAY;
    int days = (int)(since / RIGCACTUS_TICKS_PER_DAY);

    struct moment moment;
    set_date(&moment, days);
    set_clock(&moment, (int)(since % RIGCACTUS_TICKS_PER_DAY));
    moment.weekday = (days + FIRST_WEEKDAY) % 7;
    return moment;
}
