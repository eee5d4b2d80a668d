/* Records that are as long as can be made of a beginning, pieces and an end without being over a length. */
#ifndef RECORDS_H
#define RECORDS_H

#include "rigcactus.h"
#include "sides.h"

#include <stdlib.h>

/* The most inputs that a set of records has. */
enum { MOST_RECORDS = 10 };

struct record {
    char bytes[RIGCACTUS_MOST_BYTES];
    size_t length;
};

/* The two pieces are taken in turn. All are formats, for two numbers below 10 at most. */
struct record_set {
    const char *name;
    size_t length;
    const char *beginning, *pieces[2], *end;
};

/* A name of many parts, a union of intervals. */
#define GIVEN "<part value=\"Zo\xC3\xAB &amp; %02d\" type=\"GIV\" qualifier=\"CL LS\"/>"
#define FAMILY "<part value=\"van der %02d\" type=\"FAM\"/>"
#define VISIT \
    "<term xsi:type=\"IVL_TS\" lowClosed=\"true\" highClosed=\"false\"><low value=\"20240501%02d\"/><high value=\"20240502%02d\"/></term>"
#define NAME(length) {"name-" #length, length, "<guest xsi:type=\"EN\">", {GIVEN, FAMILY}, "</guest>"}
#define TIMES(length) {"times-" #length, length, "<stay xsi:type=\"QSU_TS\">", {VISIT, VISIT}, "</stay>"}

/* Long inputs are fewer, so that a round is short. */
static inline size_t record_count(const struct record_set *set)
{
    size_t count = RIGCACTUS_MOST_BYTES / set->length;
    return count > MOST_RECORDS ? MOST_RECORDS : count;
}

static inline void append(struct record *record, const char *text)
{
    size_t length = strlen(text);
    if (length > sizeof record->bytes - record->length)
        abort();
    memcpy(record->bytes + record->length, text, length);
    record->length += length;
}

static inline void make_record(const struct record_set *set, struct record *record)
{
    char piece[256];
    size_t end_length = strlen(set->end);
    record->length = 0;
    snprintf(piece, sizeof piece, set->beginning, below(10), below(10));
    for (int i = 0; piece[0] != '\0' && record->length + strlen(piece) + end_length <= set->length; i++) {
        append(record, piece);
        snprintf(piece, sizeof piece, set->pieces[i % 2], below(10), below(10));
    }
    append(record, set->end);
}

#endif
