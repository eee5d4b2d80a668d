/*
 * Listing a set of times: rigcactus_list beside an expat parse with Boost.ICL's sets; and beside rigcactus_check of the same records, which
 * is what judging them costs. sides.h says how it is run.
 */
#define _POSIX_C_SOURCE 199309L
#include "list_expat_icl.h"
#include "records.h"

/* What a record is: a union of intervals, of whole days, sets of two members within sets, or two unions of half the intervals each in one set. */
enum shape { FLAT, DAYS, DEEP, BOTH, LESS };

struct set {
    const char *name;
    int intervals;
    enum shape shape;
};

static const struct set sets[] = {
    {"flat-1", 1, FLAT},   {"flat-2", 2, FLAT},   {"flat-4", 4, FLAT},   {"flat-8", 8, FLAT},   {"flat-16", 16, FLAT},
    {"flat-32", 32, FLAT}, {"days-32", 32, DAYS}, {"deep-32", 32, DEEP}, {"both-32", 32, BOTH}, {"less-32", 32, LESS},
};

static struct record records[MOST_RECORDS];
static uint8_t list[RIGCACTUS_MOST_LIST_BYTES];
static struct rigcactus_stretch stretches[RIGCACTUS_MOST_INTERVALS];

/* The listing sides give a count, and leave the stretches. */
static int64_t rigcactus(size_t i)
{
    uint64_t answer = rigcactus_list((const uint8_t *)records[i].bytes, records[i].length, 0, list, sizeof list);
    return rigcactus_refusal(answer) == RIGCACTUS_ACCEPTED ? (int64_t)rigcactus_count(answer) : -1;
}

static int64_t expat_icl(size_t i)
{
    return (int64_t)icl_list(records[i].bytes, records[i].length, stretches, RIGCACTUS_MOST_INTERVALS);
}

static int64_t check(size_t i)
{
    return rigcactus_check((const uint8_t *)records[i].bytes, records[i].length, 0) == RIGCACTUS_ACCEPTED;
}

/* An interval of a few hours on the n-th day of a year. */
static void append_interval(struct record *record, const char *name, int n)
{
    char text[256];
    snprintf(text, sizeof text,
             "<%s xsi:type=\"IVL_TS\" lowClosed=\"true\" highClosed=\"false\"><low value=\"2024%02d%02d09%02d\"/><high value=\"2024%02d%02d1%d%02d\"/></%s>",
             name, 1 + n / 28, 1 + n % 28, below(60), 1 + n / 28, 1 + n % 28, below(10), below(60), name);
    append(record, text);
}

/* From one day to the next, both taken in whole, on the n-th day of a year. */
static void append_days(struct record *record, const char *name, int n)
{
    char text[256];
    snprintf(text, sizeof text,
             "<%s xsi:type=\"IVL_TS\" lowClosed=\"true\" highClosed=\"true\"><low value=\"2024%02d%02d\"/><high value=\"2024%02d%02d\"/></%s>",
             name, 1 + n / 24, 1 + n % 24, 1 + n / 24, 2 + n % 24, name);
    append(record, text);
}

static void append_start(struct record *record, const char *name, const char *type)
{
    char text[64];
    snprintf(text, sizeof text, "<%s xsi:type=\"%s\">", name, type);
    append(record, text);
}

static void append_end(struct record *record, const char *name)
{
    char text[64];
    snprintf(text, sizeof text, "</%s>", name);
    append(record, text);
}

/* The intervals of a union are in no order: every seventh day, and again from the next one on. */
static void append_union(struct record *record, const char *name, int intervals)
{
    append_start(record, name, "QSU_TS");
    for (int i = 0; i < intervals; i++)
        append_interval(record, "term", i * 7 % intervals);
    append_end(record, name);
}

/* The same of days, which lie apart by two. */
static void append_days_union(struct record *record, int intervals)
{
    append_start(record, "stay", "QSU_TS");
    for (int i = 0; i < intervals; i++)
        append_days(record, "term", 4 * (i * 7 % intervals) + below(2));
    append_end(record, "stay");
}

/*
 * A set at a level, with so many intervals on the days from the first on: a union of unions or of differences, in turn, of two members
 * while there are two intervals or more, and of one below that. The intervals stand at the seventh level.
 */
static void append_deep(struct record *record, const char *name, int level, int first, int intervals)
{
    if (level == 7) {
        append_interval(record, name, first);
        return;
    }
    bool difference = level % 2 == 0 && intervals > 1;
    append_start(record, name, difference ? "QSD_TS" : "QSU_TS");
    int half = intervals > 1 ? intervals / 2 : intervals;
    append_deep(record, difference ? "minuend" : "term", level + 1, first, half);
    if (intervals > 1)
        append_deep(record, difference ? "subtrahend" : "term", level + 1, first + half, intervals - half);
    append_end(record, name);
}

/* Two unions with intervals on the same days, which overlap. */
static void append_pair(struct record *record, const char *type, const char *first, const char *second, int intervals)
{
    append_start(record, "stay", type);
    append_union(record, first, intervals / 2);
    append_union(record, second, intervals / 2);
    append_end(record, "stay");
}

static void make_times(const struct set *set, struct record *record)
{
    record->length = 0;
    if (set->shape == FLAT)
        append_union(record, "stay", set->intervals);
    else if (set->shape == DAYS)
        append_days_union(record, set->intervals);
    else if (set->shape == DEEP)
        append_deep(record, "stay", 1, 0, set->intervals);
    else if (set->shape == BOTH)
        append_pair(record, "QSI_TS", "term", "term", set->intervals);
    else
        append_pair(record, "QSD_TS", "minuend", "subtrahend", set->intervals);
}

static const char *set_name(size_t set)
{
    return sets[set].name;
}

static bool is_same_stretch(struct rigcactus_stretch one, struct rigcactus_stretch other)
{
    return one.low_kind == other.low_kind && one.low_tick == other.low_tick && one.high_kind == other.high_kind &&
           one.high_tick == other.high_tick;
}

/* Both sides must come to the same stretches; those of a union are its intervals, which lie apart. */
static bool is_agreed(const struct set *set, size_t i)
{
    int64_t count = rigcactus(i);
    if (!check(i) || count <= 0 || expat_icl(i) != count || ((set->shape == FLAT || set->shape == DAYS) && count != set->intervals))
        return false;
    for (size_t k = 0; k < (size_t)count; k++)
        if (!is_same_stretch(rigcactus_stretch_at(list, k), stretches[k]))
            return false;
    return true;
}

static size_t prepare(size_t set)
{
    for (size_t i = 0; i < MOST_RECORDS; i++) {
        make_times(&sets[set], &records[i]);
        if (!is_agreed(&sets[set], i))
            return 0;
    }
    return MOST_RECORDS;
}

static size_t bytes(void)
{
    return records[0].length;
}

int main(int argc, char **argv)
{
    static const struct side sides[] = {{"rigcactus", rigcactus}, {"expat+icl", expat_icl}, {"check", check}};
    const struct bench bench = {sides, 3, sizeof sets / sizeof sets[0], set_name, prepare, bytes};
    return icl_begin() ? bench_main(&bench, argc, argv) : 3;
}
