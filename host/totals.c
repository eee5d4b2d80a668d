#include "totals.h"

#include <inttypes.h>
#include <stdio.h>

/* Prints an amount as people write it, with its currency. Its distance from 0 is unsigned, so that every amount has one. */
static void print_amount(struct rigcactus_total row)
{
    uint64_t distance = row.total < 0 ? 0 - (uint64_t)row.total : (uint64_t)row.total;
    uint64_t per_unit = (uint64_t)RIGCACTUS_PER_UNIT;
    printf("%s%" PRIu64 ".%04" PRIu64 " %s\n", row.total < 0 ? "-" : "", distance / per_unit, distance % per_unit, row.currency);
}

/* Prints the amount of a record that was added, at whichever desk: the total of a table with this record alone. */
static void print_record_amount(struct slice record, int64_t offset)
{
    uint64_t table[RIGCACTUS_TABLE_NUMBERS], report[RIGCACTUS_REPORT_NUMBERS] = {0};
    rigcactus_totals_open(table);
    rigcactus_totals_add(table, 1, record.bytes, record.length, offset);
    rigcactus_totals_report(table, 1, report);
    print_amount(rigcactus_total_at(report, 0));
}

int print_added(uint64_t table[RIGCACTUS_TABLE_NUMBERS], uint64_t desk, const char *name, struct slice record, int64_t offset)
{
    uint64_t answer = rigcactus_totals_add(table, desk, record.bytes, record.length, offset);
    int refusal = rigcactus_refusal(answer);
    printf("%s: ", name);
    if (refusal != RIGCACTUS_ACCEPTED) {
        printf("%s (%d)\n", rigcactus_refusal_name(refusal), refusal);
    } else if (rigcactus_entry(answer) == RIGCACTUS_NULL) {
        puts("null");
    } else {
        fputs("added ", stdout);
        print_record_amount(record, offset);
    }
    return refusal;
}

void print_totals(const uint64_t table[RIGCACTUS_TABLE_NUMBERS], uint64_t desk)
{
    uint64_t report[RIGCACTUS_REPORT_NUMBERS] = {0};
    size_t count = rigcactus_count(rigcactus_totals_report(table, desk, report));
    printf("added      %" PRIu64 "\n", report[0]);
    printf("null       %" PRIu64 "\n", report[1]);
    printf("refused    %" PRIu64 "\n", report[2]);
    for (size_t i = 0; i < count; i++) {
        fputs("total      ", stdout);
        print_amount(rigcactus_total_at(report, i));
    }
}
