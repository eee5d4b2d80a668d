#include "receipt.h"

#include "name.h"
#include "text.h"
#include "times.h"
#include "words.h"
#include "wrong_time.h"

#include <stdio.h>

/* What holds for a whole receipt. */
struct paper {
    int64_t offset;
    size_t width;
};

/* ---- Lines -------------------------------------------------------------------------------------------------------- */

static void print_words(const char *words, const struct paper *paper)
{
    struct text text = {.length = 0};
    add_words(&text, words);
    print_wrapped(&text, paper->width);
}

/* Adds what to tell the clinic that sent a record, for the refusal that it got. What is wrong with a time is named. */
static void add_advice(struct text *text, int refusal, struct slice record)
{
    struct slice timestamp;
    find_wrong_time(record, refusal, &timestamp);
    if (add_wrong_time(text, refusal, timestamp))
        add_words(text, ". Please send the right one.");
    else
        add_words(text, refusal_advice(refusal));
}

/* Prints the refusal of a record, and what to tell the clinic: for TYPE also the types that belong here. Gives 1 back, for a count. */
static int print_refusal(int refusal, struct slice record, const char *types, const struct paper *paper)
{
    struct text text = {.length = 0};
    add(&text, "Refused: %s (%d)", rigcactus_refusal_name(refusal), refusal);
    print_wrapped(&text, paper->width);

    struct text advice = {.length = 0};
    add_words(&advice, "Tell the clinic: ");
    add_advice(&advice, refusal, record);
    if (refusal == RIGCACTUS_TYPE)
        add(&advice, " This record is to be of type %s.", types);
    print_wrapped(&advice, paper->width);
    return 1;
}

/* Adds an attribute of a tag, as it is printed. */
static void add_attribute(struct text *text, struct slice tag, const char *name)
{
    uint8_t printed[RIGCACTUS_MOST_BYTES];
    struct slice value;
    if (find_attribute(tag, name, &value) && value.length <= sizeof printed)
        add_bytes(text, printed, decode_for_print(value, printed));
}

/* ---- A name, a sum, an identifier --------------------------------------------------------------------------------- */

/* A part of a receipt that prints a record of one type. The print function is given an accepted record, its top tag, and no null one. */
struct section {
    const char *heading;
    const char *type;
    void (*print)(struct slice record, struct slice tag, const struct paper *paper);
};

static void print_name(struct slice record, struct slice tag, const struct paper *paper)
{
    (void)tag;
    struct text text = {.length = 0};
    add_name(&text, record);
    print_cut(&text, paper->width);
}

/* The amount is printed as it is written, digit by digit. */
static void print_sum(struct slice record, struct slice tag, const struct paper *paper)
{
    (void)record;
    struct text text = {.length = 0};
    add_attribute(&text, tag, "value");
    add(&text, " ");
    add_attribute(&text, tag, "currency");
    print_wrapped(&text, paper->width);
}

static void print_identifier(struct slice record, struct slice tag, const struct paper *paper)
{
    (void)record;
    struct slice extension;
    struct text text = {.length = 0};
    if (find_attribute(tag, "extension", &extension)) {
        add_attribute(&text, tag, "extension");
        add(&text, " of ");
    }
    add_attribute(&text, tag, "root");
    print_wrapped(&text, paper->width);
}

static const struct section name_section = {"Guest", "EN", print_name};
static const struct section sum_section = {"Sum", "MO", print_sum};
static const struct section identifier_section = {"Identifier", "II", print_identifier};

/*
 * The refusal of a record that has to be of one type. Comparing it with a null value of that type answers as checking it does, and TYPE if
 * it is of another type.
 */
static int refusal_of(struct slice record, const char *type, int64_t offset)
{
    char null[64];
    int length = snprintf(null, sizeof null, "<t xsi:type=\"%s\" nullFlavor=\"NI\"/>", type);
    return rigcactus_refusal(rigcactus_compare(record.bytes, record.length, (const uint8_t *)null, (size_t)length, offset));
}

/* Prints what stands for a value that is null. */
static void print_null(struct slice flavor, struct slice tag, const struct paper *paper)
{
    struct text text = {.length = 0};
    add(&text, "none: %s (", null_flavor_words(flavor));
    add_attribute(&text, tag, "nullFlavor");
    add(&text, ")");
    print_wrapped(&text, paper->width);
}

/* Prints a section, and gives back 1 if its record is refused, else 0. */
static int print_section(const struct section *section, struct slice record, const struct paper *paper)
{
    print_words(section->heading, paper);
    int refusal = refusal_of(record, section->type, paper->offset);
    if (refusal != RIGCACTUS_ACCEPTED)
        return print_refusal(refusal, record, section->type, paper);

    struct slice rest = record, tag, flavor;
    take_tag(&rest, &tag);
    if (find_attribute(tag, "nullFlavor", &flavor))
        print_null(flavor, tag, paper);
    else
        section->print(record, tag, paper);
    return 0;
}

/* ---- The times of a pass ------------------------------------------------------------------------------------------ */

/* Prints a stretch, with its number if there are several. */
static void print_stretch(const uint8_t *list, size_t index, size_t count, const struct paper *paper)
{
    struct text text = {.length = 0};
    if (count > 1)
        add(&text, "%zu. ", index + 1);
    add_stretch(&text, rigcactus_stretch_at(list, index), (int)paper->offset);
    print_wrapped(&text, paper->width);
}

/* Prints when a pass holds, and by which clock. Gives back 1 if its record is refused, else 0. */
static int print_pass(struct slice record, const struct paper *paper)
{
    uint8_t list[RIGCACTUS_MOST_LIST_BYTES];
    uint64_t answer = rigcactus_list(record.bytes, record.length, paper->offset, list, sizeof list);
    int refusal = rigcactus_refusal(answer);
    size_t count = rigcactus_count(answer);

    print_words("Pass holds", paper);
    if (refusal != RIGCACTUS_ACCEPTED)
        return print_refusal(refusal, record, "IVL_TS, QSU_TS, QSI_TS or QSD_TS", paper);
    if (count == 0)
        print_words("at no time", paper);
    for (size_t i = 0; i < count; i++)
        print_stretch(list, i, count, paper);

    struct text clock = {.length = 0};
    add(&clock, "Clock: ");
    add_offset(&clock, (int)paper->offset);
    print_wrapped(&clock, paper->width);
    return 0;
}

/* ---- The receipt -------------------------------------------------------------------------------------------------- */

/* Prints that a receipt with refused records is none. */
static void print_end(int refused, const struct paper *paper)
{
    if (refused == 0)
        return;
    struct text text = {.length = 0};
    add(&text, "NOT A RECEIPT: %d of %d records %s refused.", refused, RECEIPT_RECORDS, refused == 1 ? "is" : "are");
    print_wrapped(&text, paper->width);
    print_rule('=', paper->width);
}

int print_receipt(const struct slice records[RECEIPT_RECORDS], int64_t offset, size_t width)
{
    const struct paper paper = {offset, width};
    print_rule('=', width);
    print_words("VISITOR PASS", &paper);
    print_rule('=', width);
    int refused = print_section(&name_section, records[0], &paper);
    print_rule('-', width);
    refused += print_section(&sum_section, records[1], &paper);
    print_rule('-', width);
    refused += print_pass(records[2], &paper);
    print_rule('-', width);
    refused += print_section(&identifier_section, records[3], &paper);
    print_rule('=', width);
    print_end(refused, &paper);
    return refused;
}
