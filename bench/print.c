/*
 * Printing a list as a record: rigcactus_print beside glibc's gmtime_r with one snprintf for each term. sides.h says how it is run.
 */
#define _POSIX_C_SOURCE 199309L
#include "rigcactus.h"
#include "sides.h"

/* How many lists a set has, and the length of a buffer, which is more than any record takes. */
enum { LISTS = 100, RECORD_BYTES = 8192 };

/* The tick of 1970-01-01 00:00 UTC, where time_t begins, and that of 2024. */
#define UNIX_START INT64_C(621355968000000)
#define YEAR_START INT64_C(638396640000000)

struct set {
    const char *name;
    size_t stretches;
};

static const struct set sets[] = {{"open-1", 1}, {"open-2", 2}, {"open-4", 4}, {"open-8", 8}, {"open-16", 16}, {"open-32", 32}};

static uint8_t lists[LISTS][RIGCACTUS_MOST_LIST_BYTES];
static size_t stretches;
static uint8_t record[RECORD_BYTES];
static char text[RECORD_BYTES];

/* Each side gives the length of the record, which it leaves. */
static int64_t rigcactus(size_t i)
{
    uint64_t answer = rigcactus_print(lists[i], stretches * RIGCACTUS_STRETCH_BYTES, record, sizeof record);
    return rigcactus_refusal(answer) == RIGCACTUS_ACCEPTED ? (int64_t)rigcactus_length(answer) : -1;
}

/* The digits after the point. */
static int split(int64_t tick, struct tm *parts)
{
    time_t seconds = (tick - UNIX_START) / RIGCACTUS_TICKS_PER_SECOND;
    gmtime_r(&seconds, parts);
    return (int)((tick - UNIX_START) % RIGCACTUS_TICKS_PER_SECOND);
}

#define TIME "%04d%02d%02d%02d%02d%02d.%04d+0000"
#define TIME_OF(parts, fraction) \
    parts.tm_year + 1900, parts.tm_mon + 1, parts.tm_mday, parts.tm_hour, parts.tm_min, parts.tm_sec, fraction

static const char *flag(int kind)
{
    return kind == RIGCACTUS_CLOSED ? "true" : "false";
}

/* The same by glibc, as far as it goes: it judges nothing, has no ends without a bound, and takes times from 1970 on. */
static int64_t glibc(size_t i)
{
    int length = snprintf(text, sizeof text, "<stay xsi:type=\"QSU_TS\">");
    for (size_t k = 0; k < stretches; k++) {
        struct rigcactus_stretch stretch = rigcactus_stretch_at(lists[i], k);
        struct tm low, high;
        int low_fraction = split(stretch.low_tick, &low), high_fraction = split(stretch.high_tick, &high);
        length += snprintf(text + length, sizeof text - (size_t)length,
                           "<term xsi:type=\"IVL_TS\" lowClosed=\"%s\" highClosed=\"%s\"><low value=\"" TIME "\"/><high value=\"" TIME "\"/></term>",
                           flag(stretch.low_kind), flag(stretch.high_kind), TIME_OF(low, low_fraction), TIME_OF(high, high_fraction));
    }
    length += snprintf(text + length, sizeof text - (size_t)length, "</stay>");
    return length;
}

static void write_number(uint8_t *list, size_t index, int64_t number)
{
    for (size_t i = 0; i < 8; i++)
        list[8 * index + i] = (uint8_t)((uint64_t)number >> 8 * i);
}

/* A few hours on each of the first days of 2024, both ends open. */
static void make_list(uint8_t *list)
{
    for (size_t k = 0; k < stretches; k++) {
        int64_t low = YEAR_START + (int64_t)k * RIGCACTUS_TICKS_PER_DAY + below(432000000), high = low + 1 + below(432000000 - 1);
        write_number(list, 4 * k, RIGCACTUS_OPEN);
        write_number(list, 4 * k + 1, low);
        write_number(list, 4 * k + 2, RIGCACTUS_OPEN);
        write_number(list, 4 * k + 3, high);
    }
}

static const char *set_name(size_t set)
{
    return sets[set].name;
}

static size_t prepare(size_t set)
{
    stretches = sets[set].stretches;
    for (size_t i = 0; i < LISTS; i++) {
        make_list(lists[i]);
        int64_t length = rigcactus(i);
        if (length <= 0 || glibc(i) != length || memcmp(record, text, (size_t)length) != 0)
            return 0;
    }
    return LISTS;
}

static size_t bytes(void)
{
    return stretches * RIGCACTUS_STRETCH_BYTES;
}

int main(int argc, char **argv)
{
    static const struct side sides[] = {{"rigcactus", rigcactus}, {"glibc", glibc}};
    const struct bench bench = {sides, 2, sizeof sets / sizeof sets[0], set_name, prepare, bytes};
    return bench_main(&bench, argc, argv);
}
