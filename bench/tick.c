/* Turning a timestamp into a number, or saying what is wrong with it: rigcactus_tick beside glibc's strptime and timegm. sides.h says how it is
   run. */
#define _GNU_SOURCE
#include "rigcactus.h"
#include "sides.h"

#include <stdlib.h>

/* How many texts a set has, and the most bytes of one, with the zero byte that strptime asks for. */
enum { TEXTS = 1000, MOST_BYTES = 20 };

/* The tick of 1970-01-01 00:00 UTC, where time_t begins. */
#define UNIX_START INT64_C(621355968000000)

/* A text is the first bytes, so many as `length` says, of 14 digits and the tail, which snprintf writes with a number below 10,000. */
struct set {
    const char *name;
    int first_year, last_year;
    size_t length;
    /* For strptime, or NULL where a text is read part by part; and for snprintf. */
    const char *format, *tail;
    /* What the texts are refused for, if they are. */
    int refusal;
};

static const struct set sets[] = {
    {"desk", 2020, 2029, 14, "%Y%m%d%H%M%S", "", 0},
    {"early", 1, 9, 14, "%Y%m%d%H%M%S", "", 0},
    {"late", 9990, 9999, 14, "%Y%m%d%H%M%S", "", 0},
    {"all", 1, 9999, 14, "%Y%m%d%H%M%S", "", 0},
    {"year", 2020, 2029, 4, "%Y", "", 0},
    {"month", 2020, 2029, 6, "%Y%m", "", 0},
    {"day", 2020, 2029, 8, "%Y%m%d", "", 0},
    {"hour", 2020, 2029, 10, "%Y%m%d%H", "", 0},
    {"minute", 2020, 2029, 12, "%Y%m%d%H%M", "", 0},
    {"offset", 2020, 2029, 19, "%Y%m%d%H%M%S%z", "+0100", 0},
    {"fraction", 2020, 2029, 19, "%Y%m%d%H%M%S.", ".%04d", 0},
    {"parts", 2020, 2029, 19, NULL, "+0100", 0},
    {"date", 2020, 2029, 19, NULL, "+0100", RIGCACTUS_DATE},
    {"clock", 2020, 2029, 19, NULL, "+0100", RIGCACTUS_CLOCK},
    {"zone", 2020, 2029, 19, NULL, "+1401", RIGCACTUS_ZONE},
    {"form", 2020, 2029, 19, NULL, "Z0100", RIGCACTUS_VALUE},
};

static const struct set *chosen;
static char texts[TEXTS][MOST_BYTES];

/* Each side gives a tick, or after a refusal a number that is none. */
static int64_t refused(int refusal)
{
    return INT64_MIN + refusal;
}

static int64_t rigcactus(size_t i)
{
    int64_t tick = 0;
    int refusal = rigcactus_refusal(rigcactus_tick((const uint8_t *)texts[i], chosen->length, 0, &tick));
    return refusal == RIGCACTUS_ACCEPTED ? tick : refused(refusal);
}

/*
 * 14 digits and an offset by glibc, part by part, to say which is wrong. The form is looked at first. strptime takes year 0, second 60 and an
 * offset of 24 hours, and reads minute 60 as 6; and timegm takes 31 April for 1 May.
 */
static int64_t glibc_by_parts(const char *text)
{
    struct tm parts = {.tm_mday = 1};
    if (strspn(text, "0123456789") != 14 || (text[14] != '+' && text[14] != '-') || strspn(text + 15, "0123456789") != 4 || text[19] != '\0')
        return refused(RIGCACTUS_VALUE);
    if (strptime(text, "%Y%m%d", &parts) != text + 8 || parts.tm_year < -1899)
        return refused(RIGCACTUS_DATE);
    struct tm same_day = parts;
    timegm(&same_day);
    if (same_day.tm_mday != parts.tm_mday)
        return refused(RIGCACTUS_DATE);
    if (strptime(text + 8, "%H%M%S", &parts) != text + 14 || parts.tm_sec > 59)
        return refused(RIGCACTUS_CLOCK);
    if (strptime(text + 14, "%z", &parts) == NULL || labs(parts.tm_gmtoff) > 14 * 3600)
        return refused(RIGCACTUS_ZONE);
    long offset = parts.tm_gmtoff;
    return (timegm(&parts) - offset) * RIGCACTUS_TICKS_PER_SECOND + UNIX_START;
}

/* The same by glibc in one go, as far as it goes: it takes 30 February for 1 March, and the digits after a point for ten-thousandths. */
static int64_t glibc(size_t i)
{
    if (chosen->format == NULL)
        return glibc_by_parts(texts[i]);
    struct tm parts = {.tm_mday = 1};
    char *end = strptime(texts[i], chosen->format, &parts);
    long offset = parts.tm_gmtoff, fraction = 0;
    if (end != NULL && end[-1] == '.')
        fraction = strtol(end, &end, 10);
    if (end == NULL || *end != '\0')
        return refused(RIGCACTUS_VALUE);
    return (timegm(&parts) - offset) * RIGCACTUS_TICKS_PER_SECOND + fraction + UNIX_START;
}

static const char *set_name(size_t set)
{
    return sets[set].name;
}

static int month_length(int year, int month)
{
    static const int lengths[] = {31, 28, 31, 30, 31, 30, 31, 31, 30, 31, 30, 31};
    bool leap = year % 4 == 0 && (year % 100 != 0 || year % 400 == 0);
    return month == 2 && leap ? 29 : lengths[month - 1];
}

/* Makes a number of the date or of the clock impossible, if the set asks for that. */
static void spoil(int date[3], int clock[3])
{
    if (chosen->refusal == RIGCACTUS_DATE) {
        int impossible[] = {0, 13, month_length(date[0], date[1]) + 1}, at = below(3);
        date[at] = impossible[at];
    } else if (chosen->refusal == RIGCACTUS_CLOCK) {
        int impossible[] = {24, 60, 60}, at = below(3);
        clock[at] = impossible[at];
    }
}

static void make_text(char *text)
{
    int year = chosen->first_year + below(chosen->last_year - chosen->first_year + 1), month = 1 + below(12);
    int day = 1 + below(month_length(year, month)), hour = below(24), minute = below(60), second = below(60);
    int date[] = {year, month, day}, clock[] = {hour, minute, second};
    char made[96];
    spoil(date, clock);
    int digits = snprintf(made, sizeof made, "%04d%02d%02d%02d%02d%02d", date[0], date[1], date[2], clock[0], clock[1], clock[2]);
    snprintf(made + digits, sizeof made - (size_t)digits, chosen->tail, below(10000));
    memcpy(text, made, chosen->length);
    text[chosen->length] = '\0';
}

static size_t prepare(size_t set)
{
    chosen = &sets[set];
    for (size_t i = 0; i < TEXTS; i++) {
        make_text(texts[i]);
        int64_t tick = rigcactus(i);
        bool is_due = chosen->refusal == RIGCACTUS_ACCEPTED ? tick > refused(UINT8_MAX) : tick == refused(chosen->refusal);
        if (!is_due || tick != glibc(i))
            return 0;
    }
    return TEXTS;
}

static size_t bytes(void)
{
    return chosen->length;
}

int main(int argc, char **argv)
{
    static const struct side sides[] = {{"rigcactus", rigcactus}, {"glibc", glibc}};
    const struct bench bench = {sides, 2, sizeof sets / sizeof sets[0], set_name, prepare, bytes};
    return bench_main(&bench, argc, argv);
}
