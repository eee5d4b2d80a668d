/*
 * Comparing two records: rigcactus_compare beside an expat parse of both that keeps the attributes, and a comparison of those; and beside
 * rigcactus_check of both, which is what judging them costs. The records of a pair have the same value, so that all of it is compared.
 * sides.h says how it is run.
 */
#define _POSIX_C_SOURCE 199309L
#include "compare_expat.h"
#include "records.h"

static const struct record_set sets[] = {
    {"time", 100, "<arrival xsi:type=\"TS\" value=\"20240501%02d%02d00.25+0530\"/>", {"", ""}, ""},
    {"pass", 200,
     "<pass xsi:type=\"IVL_TS\" lowClosed=\"true\" highClosed=\"false\"><low value=\"20240501%02d\"/><high value=\"20240502%02d\"/></pass>",
     {"", ""}, ""},
    {"money", 100, "<deposit xsi:type=\"MO\" value=\"1%02d.%02d\" currency=\"EUR\"/>", {"", ""}, ""},
    {"badge", 100, "<badge xsi:type=\"II\" root=\"2.16.840.1.113883.%d\" extension=\"V-%02d\"/>", {"", ""}, ""},
    {"reason", 200, "<reason xsi:type=\"CD\" code=\"3083%02d0%02d\" codeSystem=\"2.16.840.1.113883.6.96\"/>", {"", ""}, ""},
    NAME(100), NAME(200), NAME(500), NAME(1000), NAME(2000), NAME(4000), NAME(8000), NAME(16000),
};

static struct record firsts[MOST_RECORDS], seconds[MOST_RECORDS];

static int rigcactus_says(const struct record *first, const struct record *second)
{
    const uint8_t *one = (const uint8_t *)first->bytes, *other = (const uint8_t *)second->bytes;
    return rigcactus_comparison(rigcactus_compare(one, first->length, other, second->length, 0));
}

static int expat_says(const struct record *first, const struct record *second)
{
    return expat_compare(first->bytes, first->length, second->bytes, second->length);
}

static int64_t rigcactus(size_t i)
{
    return rigcactus_says(&firsts[i], &seconds[i]);
}

static int64_t expat(size_t i)
{
    return expat_says(&firsts[i], &seconds[i]);
}

static bool is_accepted(const struct record *record)
{
    return rigcactus_check((const uint8_t *)record->bytes, record->length, 0) == RIGCACTUS_ACCEPTED;
}

static int64_t check(size_t i)
{
    return is_accepted(&firsts[i]) && is_accepted(&seconds[i]);
}

static const char *set_name(size_t set)
{
    return sets[set].name;
}

/* The sides must also agree on a record and the one before it, which mostly differ. */
static bool is_agreed(size_t i)
{
    const struct record *before = &firsts[i > 0 ? i - 1 : 0];
    return rigcactus(i) == RIGCACTUS_YES && expat(i) == RIGCACTUS_YES && check(i) &&
           rigcactus_says(before, &seconds[i]) == expat_says(before, &seconds[i]);
}

static size_t prepare(size_t set)
{
    size_t count = record_count(&sets[set]);
    for (size_t i = 0; i < count; i++) {
        make_record(&sets[set], &firsts[i]);
        seconds[i] = firsts[i];
        if (!is_agreed(i))
            return 0;
    }
    return count;
}

static size_t bytes(void)
{
    return firsts[0].length;
}

int main(int argc, char **argv)
{
    static const struct side sides[] = {{"rigcactus", rigcactus}, {"expat", expat}, {"check", check}};
    const struct bench bench = {sides, 3, sizeof sets / sizeof sets[0], set_name, prepare, bytes};
    return expat_begin() ? bench_main(&bench, argc, argv) : 3;
}
