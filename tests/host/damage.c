/*
 * Damaged records, given to the reader of texts, to the finder of wrong times, to receipts and to totals: every file that is named, cut off after every length, and with each of its
 * bytes replaced by others. Memory that is lent ends where the record does, so that a sanitizer or valgrind sees a byte read too far.
 *
 *     damage STEP FILE..    with STEP 1 every length and byte is tried, with a larger one only some are
 */
#include "receipt.h"
#include "rigcactus.h"
#include "text.h"
#include "totals.h"
#include "wrong_time.h"

#include <inttypes.h>
#include <stdio.h>
#include <stdlib.h>
#include <string.h>

/* A 9 in a timestamp makes months, days, hours, minutes and offsets that there are not. */
static const uint8_t replacements[] = {'"', '<', '>', '&', '/', ' ', '9', 0x00, 0xC2, 0xFF};

static const char *const good[RECEIPT_RECORDS] = {
    "<n xsi:type=\"EN\"><part value=\"Zo\xC3\xAB\"/></n>",
    "<s xsi:type=\"MO\" value=\"12.50\" currency=\"EUR\"/>",
    "<p xsi:type=\"IVL_TS\"><low nullFlavor=\"NINF\"/><high nullFlavor=\"PINF\"/></p>",
    "<i xsi:type=\"II\" root=\"1.2\"/>",
};

static unsigned long receipts = 0, refusals = 0, wrong_times = 0, failures = 0;

/* One table for all records, which come from the two desks in turn: what is damaged are records, and never the table. */
static uint64_t table[RIGCACTUS_TABLE_NUMBERS];
static uint64_t turn = 1;

/* Memory of exactly this length: reading past it is seen. */
static uint8_t *lend(size_t length)
{
    uint8_t *memory = malloc(length > 0 ? length : 1);
    if (memory == NULL)
        exit(3);
    return memory;
}

/* Reads texts out of bytes that need not be a record. What is printed of a value fits in the value's own length. */
static void read_texts(struct slice record)
{
    static const char *const names[] = {"value", "nullFlavor", "root", ""};
    struct slice tag, value;
    for (unsigned tags = 0; take_tag(&record, &tag); tags++) {
        find_attribute(tag, names[tags % 4], &value);
        uint8_t *printed = lend(value.length);
        failures += decode_for_print(value, printed) > value.length;
        slice_has_word(value, "PFX");
        free(printed);
    }
}

/* Whether something is said of a text as a timestamp that gets this refusal. Nothing is, unless it gets it. */
static bool is_said(struct slice value, int refusal)
{
    int64_t tick;
    struct text text = {.length = 0};
    uint8_t *lent = lend(value.length);
    memcpy(lent, value.bytes, value.length);
    bool said = add_wrong_time(&text, refusal, (struct slice){lent, value.length});
    bool is_refused = rigcactus_refusal(rigcactus_tick(lent, value.length, 0, &tick)) == refusal;
    failures += said != (text.length > 0) || said != (is_refused && is_for_time(refusal));
    free(lent);
    return said;
}

/*
 * Looks for a time that is wrong, whatever the record is refused for: what is found is in the record and something is said of it, and in a
 * record that is refused for a time one is found. Then says what is wrong with every text that is named as timestamps are.
 */
static void name_wrong_times(struct slice record)
{
    static const int named[] = {RIGCACTUS_ACCEPTED, RIGCACTUS_VALUE, RIGCACTUS_DATE, RIGCACTUS_CLOCK, RIGCACTUS_ZONE};
    int due = rigcactus_refusal(rigcactus_check(record.bytes, record.length, 0));
    wrong_times += is_for_time(due);
    for (size_t i = 0; i < sizeof named / sizeof named[0]; i++) {
        struct slice rest = record, tag, value;
        bool found = find_wrong_time(record, named[i], &value);
        bool is_inside = value.bytes >= record.bytes && value.length <= (size_t)(record.bytes + record.length - value.bytes);
        failures += !is_inside || is_said(value, named[i]) != found || (named[i] == due && found != is_for_time(due));
        while (take_tag(&rest, &tag))
            if (find_attribute(tag, "value", &value))
                is_said(value, named[i]);
    }
}

/* Prints a receipt with the record at one place. It is refused there if the services say so, and else only for its type. */
static void print_at(struct slice record, size_t place)
{
    static const size_t widths[] = {LEAST_WIDTH, 7, USUAL_WIDTH, 100};
    struct slice records[RECEIPT_RECORDS];
    for (size_t i = 0; i < RECEIPT_RECORDS; i++)
        records[i] = (struct slice){(const uint8_t *)good[i], strlen(good[i])};
    records[place] = record;

    int refused = print_receipt(records, 0, widths[receipts % 4]);
    uint64_t due = place == 2 ? rigcactus_list(record.bytes, record.length, 0, (uint8_t[RIGCACTUS_MOST_LIST_BYTES]){0}, RIGCACTUS_MOST_LIST_BYTES)
                              : rigcactus_check(record.bytes, record.length, 0);
    receipts++;
    refusals += (unsigned long)refused;
    failures += refused > 1 || (rigcactus_refusal(due) != RIGCACTUS_ACCEPTED && refused == 0);
    failures += place == 2 && rigcactus_refusal(due) == RIGCACTUS_ACCEPTED && refused == 1;
}

/* The counts of a desk: of records added, null and refused. */
static const uint64_t *counts(uint64_t desk)
{
    return table + 1 + 3 * (desk - 1);
}

static uint64_t counted(uint64_t desk)
{
    return counts(desk)[0] + counts(desk)[1] + counts(desk)[2];
}

/* A report, and zeros beyond it. */
static uint64_t report_of(uint64_t desk, uint64_t report[RIGCACTUS_REPORT_NUMBERS])
{
    memset(report, 0, RIGCACTUS_REPORT_NUMBERS * sizeof *report);
    return rigcactus_totals_report(table, desk, report);
}

/*
 * Adds the record to the totals of the desk whose turn it is. One of its counts rises; it is refused if the services say so, and else only for
 * its type. The other desk's report stays.
 */
static void add_to_totals(struct slice record)
{
    uint64_t desk = turn, other = RIGCACTUS_DESKS + 1 - turn, kept[RIGCACTUS_REPORT_NUMBERS], report[RIGCACTUS_REPORT_NUMBERS];
    uint64_t before = counted(desk), refused_before = counts(desk)[2], answer = report_of(other, kept);
    int refusal = print_added(table, desk, "record", record, 0);
    int due = rigcactus_refusal(rigcactus_check(record.bytes, record.length, 0));
    print_totals(table, desk);
    failures += counted(desk) != before + 1 || counts(desk)[2] - refused_before != (refusal != RIGCACTUS_ACCEPTED);
    failures += report_of(other, report) != answer || memcmp(report, kept, sizeof kept) != 0;
    turn = other;
    failures += due != RIGCACTUS_ACCEPTED && refusal != due && refusal != RIGCACTUS_TYPE;
    failures += due == RIGCACTUS_ACCEPTED && refusal != RIGCACTUS_ACCEPTED && refusal != RIGCACTUS_TYPE;
}

/* Tries the first bytes of a record at every place. */
static void try_length(const uint8_t *bytes, size_t length)
{
    uint8_t *lent = lend(length);
    memcpy(lent, bytes, length);
    struct slice record = {lent, length};
    read_texts(record);
    name_wrong_times(record);
    for (size_t place = 0; place < RECEIPT_RECORDS; place++)
        print_at(record, place);
    add_to_totals(record);
    free(lent);
}

/* Tries a record with one byte replaced by each of the others, at one place after another. */
static void try_byte(const uint8_t *bytes, size_t length, size_t at)
{
    uint8_t *lent = lend(length);
    memcpy(lent, bytes, length);
    for (size_t i = 0; i < sizeof replacements; i++) {
        lent[at] = replacements[i];
        read_texts((struct slice){lent, length});
        name_wrong_times((struct slice){lent, length});
        print_at((struct slice){lent, length}, (at + i) % RECEIPT_RECORDS);
        add_to_totals((struct slice){lent, length});
    }
    free(lent);
}

static void try_file(const char *name, size_t step)
{
    static uint8_t bytes[RIGCACTUS_MOST_BYTES + 1];
    FILE *file = fopen(name, "rb");
    if (file == NULL) {
        perror(name);
        exit(3);
    }
    size_t length = fread(bytes, 1, sizeof bytes, file);
    fclose(file);
    try_length(bytes, length);
    for (size_t at = 0; at < length; at += step) {
        try_length(bytes, at);
        try_byte(bytes, length, at);
    }
}

int main(int argc, char **argv)
{
    long step = argc > 2 ? strtol(argv[1], NULL, 10) : 0;
    if (step < 1) {
        fputs("usage: damage STEP FILE..\n", stderr);
        return 2;
    }
    if (freopen("/dev/null", "w", stdout) == NULL)
        return 3;
    rigcactus_totals_open(table);
    for (int i = 2; i < argc; i++)
        try_file(argv[i], (size_t)step);
    for (uint64_t desk = 1; desk <= RIGCACTUS_DESKS; desk++) {
        const uint64_t *of = counts(desk);
        fprintf(stderr, "totals of desk %" PRIu64 ": %" PRIu64 " added, %" PRIu64 " null, %" PRIu64 " refused\n", desk, of[0], of[1], of[2]);
        failures += of[0] == 0 || of[1] == 0 || of[2] == 0;
    }
    fprintf(stderr, "%lu receipts, %lu refused, %lu records with a wrong time, %lu failures\n", receipts, refusals, wrong_times, failures);
    return failures > 0 || refusals == 0 || refusals == receipts || wrong_times == 0;
}
