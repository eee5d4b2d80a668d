/*
 * A day's totals: rigcactus_totals_add beside an expat parse of each record with `strtod` and an array of sums by currency for each desk, and
 * beside rigcactus_check, which is what judging the records costs. A day has 10,000 amounts in 1, 4 or 16 currencies of one desk, or in 16 of
 * each of two, one after another from an empty table on; its first and its last thousand are also run by themselves, the last from where the
 * day has come to. sides.h says how it is run.
 */
#define _POSIX_C_SOURCE 199309L
#include "rigcactus.h"
#include "sides.h"
#include "totals_expat.h"

enum { DAY = 10000, PART = 1000, MOST_LENGTH = 96, DESKS = 2 };

struct set {
    const char *name;
    int desks, currencies;
    size_t first, count;
};

static const struct set sets[] = {
    {"day-1", 1, 1, 0, DAY},      {"first-1", 1, 1, 0, PART},      {"last-1", 1, 1, DAY - PART, PART},
    {"day-4", 1, 4, 0, DAY},      {"first-4", 1, 4, 0, PART},      {"last-4", 1, 4, DAY - PART, PART},
    {"day-16", 1, 16, 0, DAY},    {"first-16", 1, 16, 0, PART},    {"last-16", 1, 16, DAY - PART, PART},
    {"day-16+16", 2, 16, 0, DAY}, {"first-16+16", 2, 16, 0, PART}, {"last-16+16", 2, 16, DAY - PART, PART},
};

static const char currencies[MOST_SUMS][4] = {
    "EUR", "USD", "CHF", "GBP", "SEK", "NOK", "DKK", "PLN", "CZK", "HUF", "RON", "BGN", "TRY", "JPY", "CNY", "INR",
};

static const struct set *chosen;
static char records[DAY][MOST_LENGTH];
static size_t lengths[DAY];
static uint64_t desks[DAY];

/* The days of each side, and what they were when the first record of the set came. */
static uint64_t table[RIGCACTUS_TABLE_NUMBERS], table_before[RIGCACTUS_TABLE_NUMBERS];
static struct expat_day days[DESKS], days_before[DESKS];

static uint64_t add(size_t i)
{
    return rigcactus_totals_add(table, desks[i], (const uint8_t *)records[i], lengths[i], 0);
}

static bool add_by_expat(size_t i)
{
    return expat_add(&days[desks[i] - 1], records[i], lengths[i]);
}

/* Each side gives 1 for a record that is added. The first one of a round begins anew. */
static int64_t rigcactus(size_t i)
{
    if (i == 0)
        memcpy(table, table_before, sizeof table);
    return rigcactus_entry(add(chosen->first + i)) == RIGCACTUS_ADDED;
}

static int64_t expat(size_t i)
{
    if (i == 0)
        memcpy(days, days_before, sizeof days);
    return add_by_expat(chosen->first + i);
}

static int64_t check(size_t i)
{
    size_t at = chosen->first + i;
    return rigcactus_check((const uint8_t *)records[at], lengths[at], 0) == RIGCACTUS_ACCEPTED;
}

static const char *set_name(size_t set)
{
    return sets[set].name;
}

/* An amount of up to 999.99, one of eight a refund, of one of the desks. */
static void make_record(size_t i)
{
    const char *currency = currencies[below(chosen->currencies)], *sign = below(8) == 0 ? "-" : "";
    desks[i] = chosen->desks == 1 ? 1 : 1 + (uint64_t)below(DESKS);
    lengths[i] = (size_t)snprintf(records[i], MOST_LENGTH, "<deposit xsi:type=\"MO\" value=\"%s%d.%02d\" currency=\"%s\"/>", sign,
                                  below(1000), below(100), currency);
}

/* Whether both sides have the same currencies of a desk in the same order, and sums that are the same when they are rounded to cents. */
static bool is_agreed(uint64_t desk)
{
    uint64_t report[RIGCACTUS_REPORT_NUMBERS];
    uint64_t answer = rigcactus_totals_report(table, desk, report);
    const struct expat_day *day = &days[desk - 1];

    if (rigcactus_refusal(answer) != RIGCACTUS_ACCEPTED || rigcactus_count(answer) != day->count || report[0] != day->added)
        return false;
    for (size_t i = 0; i < day->count; i++) {
        struct rigcactus_total row = rigcactus_total_at(report, i);
        double off = (double)row.total / (double)RIGCACTUS_PER_UNIT - day->sums[i].sum;
        if (strcmp(row.currency, day->sums[i].currency) != 0 || off < -0.005 || off > 0.005)
            return false;
    }
    return true;
}

/* Makes a day and has both sides go through it up to the end of the set, and keeps what they are where the set begins. */
static size_t prepare(size_t set)
{
    chosen = &sets[set];
    rigcactus_totals_open(table);
    memset(days, 0, sizeof days);
    for (size_t i = 0; i < chosen->first + chosen->count; i++) {
        make_record(i);
        if (i == chosen->first) {
            memcpy(table_before, table, sizeof table);
            memcpy(days_before, days, sizeof days);
        }
        if (rigcactus_entry(add(i)) != RIGCACTUS_ADDED || !add_by_expat(i))
            return 0;
    }
    return is_agreed(1) && is_agreed(2) ? chosen->count : 0;
}

static size_t bytes(void)
{
    return lengths[chosen->first];
}

int main(int argc, char **argv)
{
    static const struct side sides[] = {{"rigcactus", rigcactus}, {"expat", expat}, {"check", check}};
    const struct bench bench = {sides, 3, sizeof sets / sizeof sets[0], set_name, prepare, bytes};
    return expat_begin() ? bench_main(&bench, argc, argv) : 3;
}
