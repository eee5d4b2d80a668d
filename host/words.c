#include "words.h"

#include "rigcactus.h"

static const struct {
    const char *flavor;
    const char *words;
} flavors[] = {
    {"NI", "no information"},
    {"INV", "invalid"},
    {"DER", "derived"},
    {"OTH", "other"},
    {"NINF", "negative infinity"},
    {"PINF", "positive infinity"},
    {"UNC", "unencoded"},
    {"MSK", "masked"},
    {"NA", "not applicable"},
    {"UNK", "unknown"},
    {"ASKU", "asked but unknown"},
    {"NAV", "temporarily unavailable"},
    {"NASK", "not asked"},
    {"QS", "sufficient quantity"},
    {"TRC", "trace"},
};

const char *null_flavor_words(struct slice flavor)
{
    for (size_t i = 0; i < sizeof flavors / sizeof flavors[0]; i++)
        if (slice_is(flavor, flavors[i].flavor))
            return flavors[i].words;
    return "no information";
}

/* The advice for refusals that a day's totals alone have. */
static const char *totals_advice(int refusal)
{
    switch (refusal) {
    case RIGCACTUS_NO_DESK:
        return "nothing. The number that this desk was set to is neither 1 nor 2. Set it right and read the record again.";
    case RIGCACTUS_DAMAGED:
        return "nothing. The table that both desks share is damaged. Open a new one, and read the records of the day again, those of both desks.";
    case RIGCACTUS_DAY_FULL:
        return "nothing. This desk has counted 1,000,000 records today. Report its totals, start its day anew, and read the record again.";
    case RIGCACTUS_NO_ROW:
        return "nothing. This desk has totals in 16 currencies today, and has no row for another. Add the record to another table.";
    case RIGCACTUS_TOTAL:
        return "nothing. With this record the day's total in its currency would go beyond 900,000,000,000,000.0000 or its negative. Add the record "
               "to another table.";
    default:
        return "the number. This program has no words for it.";
    }
}

/* The advice for a timestamp that says an impossible time, where it is not found which. */
static const char *time_advice(int refusal)
{
    switch (refusal) {
    case RIGCACTUS_DATE:
        return "a date is on no calendar. Please send the right one.";
    case RIGCACTUS_CLOCK:
        return "a time is on no clock. Please send the right one.";
    case RIGCACTUS_ZONE:
        return "an offset is of no time zone. Please send the right one.";
    default:
        return totals_advice(refusal);
    }
}

const char *refusal_advice(int refusal)
{
    switch (refusal) {
    case RIGCACTUS_OFFSET:
        return "nothing. The offset that this desk was set to is not from -840 to 840 minutes. Set it right and read the record again.";
    case RIGCACTUS_TOO_LONG:
        return "the record is longer than 16,384 bytes. Please send a shorter one.";
    case RIGCACTUS_NOT_UTF8:
        return "the record is not UTF-8. A text may have been cut inside a letter, or be in another encoding. Please send it whole and in UTF-8.";
    case RIGCACTUS_MARKUP:
        return "the record is not one whole XML element as this desk reads it. Please send one element, its attributes in double quotes, with no "
               "text between tags, no prolog, comment, CDATA or numeric reference, and no more than 8 elements open at once.";
    case RIGCACTUS_TYPE:
        return "an xsi:type is missing, is not known here, or does not belong where it stands.";
    case RIGCACTUS_SHAPE:
        return "an attribute or an inner element is missing, does not belong there, or is out of order. Please send what the type has and no more.";
    case RIGCACTUS_VALUE:
        return "the text of an attribute is not written as it must be, like 12,50 for the amount 12.50, or 2024-05-01 for the date 20240501. "
               "Please write it right.";
    case RIGCACTUS_RULE:
        return "what the record says does not go together, like a sum without its currency, a part of a name without a text, a time without its "
               "flag, or a start after its end. Please put it right.";
    case RIGCACTUS_UNKNOWN_BOUND:
        return "it is not said when the pass starts or ends. Please send each start and each end, or NINF and PINF where there is none.";
    case RIGCACTUS_TOO_MANY:
        return "the pass is written with more than 32 intervals. Please write it with fewer, or as two passes.";
    case RIGCACTUS_NOT_WRITABLE: /* a list that was just written is never improper */
        return "a time lies outside years 0001 to 9999 in UTC, as the end of year 9999 does. Please send times within them.";
    case RIGCACTUS_NO_ROOM:
        return "nothing. This desk has no room for so many stretches of time. Lend a longer list and read the record again.";
    default:
        return time_advice(refusal);
    }
}
