/*
 * Rigcactus reads small ISO 21090 values from bytes that nobody vouches for.
 *
 * A service takes numbers and bytes and gives one uint64_t back, its answer. Any bytes and any numbers get an answer. It
 * says either that the input is accepted, with a result, or why it is refused, with no result:
 *
 *     bits 0 to 7     the refusal's number, 0 if accepted; rigcactus_refusal takes it out
 *     bits 8 to 63    the result; each service says what it is and what takes it out. After a refusal they are 0, but for
 *                     rigcactus_compare, which says in bits 8 to 15 which record is refused
 *
 *     uint64_t answer = rigcactus_cut(name, name_len, 24);
 *     if (rigcactus_refusal(answer) == RIGCACTUS_ACCEPTED)
 *         fwrite(name, 1, rigcactus_length(answer), stdout);
 *     else
 *         fprintf(stderr, "%s\n", rigcactus_refusal_name(rigcactus_refusal(answer)));
 *
 * What holds of every service:
 *
 * - Lent memory. A pointer comes with its length in bytes and must lead to that many bytes, which may be read, and written
 *   if it is not to const. They may start at any address and end without a zero byte. A null pointer is allowed with length
 *   0. A tick, a table and a report have no length: they are one int64_t, RIGCACTUS_TABLE_NUMBERS and RIGCACTUS_REPORT_NUMBERS of
 *   type uint64_t, aligned as the type asks, and their pointers are not null. During the call nobody else may change lent
 *   memory, or read what the service may write. The service keeps no pointer.
 * - Writing. What is lent through a pointer to const is never written. Memory that a service may write must overlap no other
 *   memory that is lent to the same call; const memory may overlap const. It is written only where the input is accepted, but
 *   for one count of a table: rigcactus_totals_add raises it for a refused record too, save one that is refused as
 *   RIGCACTUS_NO_DESK, RIGCACTUS_DAMAGED or RIGCACTUS_DAY_FULL.
 * - Threads. There is no state but in a table, which the caller keeps, no allocation, no lock and no errno: any number of
 *   threads may call at the same time, and the same arguments, with the same numbers in a table, always give the same answer.
 *   A table is lent as a whole, whichever desk a call is for: calls with one table are the caller's to put one after another.
 * - Lengths. A length is a size_t of 64 bits and at most PTRDIFF_MAX, as of any memory. A longer input than
 *   RIGCACTUS_MOST_BYTES is refused unread, and a longer list than RIGCACTUS_MOST_LIST_BYTES is refused by rigcactus_print. For
 *   what a service writes, RIGCACTUS_MOST_LIST_BYTES or RIGCACTUS_MOST_PRINTED_BYTES is enough, and more is no use.
 * - Time. A call ends, after work that grows with the length of the input and stops at these limits; in a start tag whose names
 *   are chosen to look alike to the reader, with the square of their count.
 * - Stack. docs/C-API.md says how much a service takes. There is no recursion beyond the 8 levels of a record.
 *
 * Link with librigcactus.a (Linux, x86-64). The header is C11 and C++. docs/C-API.md has a complete program.
 */
#ifndef RIGCACTUS_H
#define RIGCACTUS_H

#include <stddef.h>
#include <stdint.h>

#ifdef __cplusplus
extern "C" {
#endif

/* ---- Limits ------------------------------------------------------------------------------------------------------- */

/* The longest input that is read, in bytes. One byte more is refused, as RIGCACTUS_TOO_LONG. */
#define RIGCACTUS_MOST_BYTES 16384

/* The largest agreed offset, in minutes; the smallest is its negative. Those beyond are refused, as RIGCACTUS_OFFSET. */
#define RIGCACTUS_MOST_OFFSET 840

/* The most intervals that a listed set may have. One more is refused, as RIGCACTUS_TOO_MANY. */
#define RIGCACTUS_MOST_INTERVALS 32

/* How many bytes of a list a stretch takes: four numbers, eight bytes each. */
#define RIGCACTUS_STRETCH_BYTES 32

/* The length of a list, in bytes, that no answer needs more of: a set has never more stretches than intervals. */
#define RIGCACTUS_MOST_LIST_BYTES (RIGCACTUS_MOST_INTERVALS * RIGCACTUS_STRETCH_BYTES)

/* The length of a record, in bytes, that no list needs more of to be printed: 32 stretches, open on both sides, need them all. */
#define RIGCACTUS_MOST_PRINTED_BYTES 4735

/* How many numbers of type uint64_t a table of a day's totals has, and how many the report of a desk. */
#define RIGCACTUS_TABLE_NUMBERS 103
#define RIGCACTUS_REPORT_NUMBERS 35

/* How many desks share a table. They are numbered from 1 on, and another number is refused, as RIGCACTUS_NO_DESK. */
#define RIGCACTUS_DESKS 2

/* The most currencies that a desk holds, each in a row. A record of that desk in one more is refused, as RIGCACTUS_NO_ROW. */
#define RIGCACTUS_MOST_CURRENCIES 16

/*
 * The most records of a desk that are counted: those added, null and refused together. One more is refused, as
 * RIGCACTUS_DAY_FULL.
 */
#define RIGCACTUS_MOST_COUNTED 1000000

/*
 * The largest total, in ten-thousandths of the currency's unit; the smallest is its negative. A record that would lead beyond is
 * refused, as RIGCACTUS_TOTAL.
 */
#define RIGCACTUS_MOST_TOTAL INT64_C(9000000000000000000)

/* What a total counts: so many to the currency's unit. */
#define RIGCACTUS_PER_UNIT INT64_C(10000)

/* ---- Ticks -------------------------------------------------------------------------------------------------------- */

/*
 * A tick is a ten-thousandth of a second, counted from 0001-01-01 00:00 UTC: Gregorian in all years, without leap seconds.
 * The tick of 1970-01-01 00:00 UTC is 621355968000000.
 */
#define RIGCACTUS_TICKS_PER_SECOND INT64_C(10000)
#define RIGCACTUS_TICKS_PER_DAY INT64_C(864000000)

/* ---- Refusals ----------------------------------------------------------------------------------------------------- */

/*
 * The refusals of all services, and their numbers. Where several apply, a service gives the one that comes first in this
 * list. The list is the order, and the numbers are only names: 23 stands before 1, 13 before 8 and 12 before 11, and a refusal
 * that is added later may stand anywhere. So ask whether a number equals one of these, and not whether it is smaller.
 */
enum rigcactus_refusals {
    RIGCACTUS_ACCEPTED = 0,       /* no refusal */
    RIGCACTUS_NO_DESK = 23,       /* a desk's number is not from 1 to RIGCACTUS_DESKS */
    RIGCACTUS_DAMAGED = 21,       /* a table is damaged; rigcactus_totals_add says exactly when */
    RIGCACTUS_DAY_FULL = 25,      /* a desk has counted RIGCACTUS_MOST_COUNTED records */
    RIGCACTUS_OFFSET = 1,         /* the agreed offset is not from -840 to 840 minutes */
    RIGCACTUS_TOO_LONG = 2,       /* the input is over RIGCACTUS_MOST_BYTES */
    RIGCACTUS_NOT_UTF8 = 3,       /* the bytes are not UTF-8 by RFC 3629 */
    RIGCACTUS_MARKUP = 4,         /* the record is not one element by the markup rules */
    RIGCACTUS_TYPE = 5,           /* a type is missing, unknown or not allowed at its place */
    RIGCACTUS_SHAPE = 6,          /* attributes or children are not allowed, missing or out of order */
    RIGCACTUS_VALUE = 7,          /* an attribute's text, or the timestamp, is not of its form */
    RIGCACTUS_DATE = 13,          /* a timestamp of the right form has a year, month or day that is on no calendar */
    RIGCACTUS_CLOCK = 14,         /* a timestamp of the right form has an hour over 23, or a minute or second over 59 */
    RIGCACTUS_ZONE = 15,          /* a timestamp of the right form has an offset over 14:00, or with minutes over 59 */
    RIGCACTUS_RULE = 8,           /* an invariant of the data types is broken */
    RIGCACTUS_UNKNOWN_BOUND = 9,  /* a listed set or interval is null, or has a bound that is not known */
    RIGCACTUS_TOO_MANY = 10,      /* a listed set has over 32 intervals */
    RIGCACTUS_NOT_WRITABLE = 12,  /* a list to print is improper, or has a tick outside years 0001 to 9999 */
    RIGCACTUS_NO_ROOM = 11,       /* the lent list is too short for the stretches, or the lent record for the bytes */
    RIGCACTUS_NO_ROW = 16,        /* a record to add is in a currency new to its desk, which holds RIGCACTUS_MOST_CURRENCIES */
    RIGCACTUS_TOTAL = 17          /* a record to add would lead a total beyond RIGCACTUS_MOST_TOTAL or its negative */
};

/*
 * The name of a refusal, as "NOT UTF-8" for RIGCACTUS_NOT_UTF8; "ACCEPTED" for RIGCACTUS_ACCEPTED; "UNLISTED" for a
 * number that is none of them. Always a text that can be printed, and never to be freed.
 */
static inline const char *rigcactus_refusal_name(int refusal)
{
    switch (refusal) {
    case RIGCACTUS_ACCEPTED: return "ACCEPTED";
    case RIGCACTUS_NO_DESK: return "NO DESK";
    case RIGCACTUS_DAMAGED: return "DAMAGED";
    case RIGCACTUS_DAY_FULL: return "DAY FULL";
    case RIGCACTUS_OFFSET: return "OFFSET";
    case RIGCACTUS_TOO_LONG: return "TOO LONG";
    case RIGCACTUS_NOT_UTF8: return "NOT UTF-8";
    case RIGCACTUS_MARKUP: return "MARKUP";
    case RIGCACTUS_TYPE: return "TYPE";
    case RIGCACTUS_SHAPE: return "SHAPE";
    case RIGCACTUS_VALUE: return "VALUE";
    case RIGCACTUS_DATE: return "DATE";
    case RIGCACTUS_CLOCK: return "CLOCK";
    case RIGCACTUS_ZONE: return "ZONE";
    case RIGCACTUS_RULE: return "RULE";
    case RIGCACTUS_UNKNOWN_BOUND: return "UNKNOWN BOUND";
    case RIGCACTUS_TOO_MANY: return "TOO MANY";
    case RIGCACTUS_NOT_WRITABLE: return "NOT WRITABLE";
    case RIGCACTUS_NO_ROOM: return "NO ROOM";
    case RIGCACTUS_NO_ROW: return "NO ROW";
    case RIGCACTUS_TOTAL: return "TOTAL";
    default: return "UNLISTED";
    }
}

/* ---- Answers ------------------------------------------------------------------------------------------------------ */

/* The refusal that an answer of any service holds, one of enum rigcactus_refusals: RIGCACTUS_ACCEPTED if it has none. */
static inline int rigcactus_refusal(uint64_t answer)
{
    return answer & 0xFF;
}

/* The length that an answer of rigcactus_cut or rigcactus_print holds, in bytes; 0 after a refusal. */
static inline size_t rigcactus_length(uint64_t answer)
{
    return answer >> 8;
}

/* The precision that an answer of rigcactus_tick holds, from 4 to 18 digits; 0 after a refusal. */
static inline int rigcactus_precision(uint64_t answer)
{
    return (answer >> 8) & 0xFF;
}

/*
 * The count of stretches that an answer of rigcactus_list holds, or of rows that one of rigcactus_totals_report holds; 0 after a
 * refusal.
 */
static inline size_t rigcactus_count(uint64_t answer)
{
    return answer >> 8;
}

/* What an answer of rigcactus_compare says of two values. */
enum rigcactus_comparisons {
    RIGCACTUS_YES = 1,     /* they are the same */
    RIGCACTUS_NO = 2,      /* they are not */
    RIGCACTUS_UNKNOWN = 3  /* what is written does not say */
};

/* The comparison that an answer of rigcactus_compare holds, one of enum rigcactus_comparisons; 0 after a refusal. */
static inline int rigcactus_comparison(uint64_t answer)
{
    return (answer >> 16) & 0xFF;
}

/* The record that an answer of rigcactus_compare refuses: 1 for the first, 2 for the second; 0 if both are accepted. */
static inline int rigcactus_refused_record(uint64_t answer)
{
    return (answer >> 8) & 0xFF;
}

/* What an answer of rigcactus_totals_add says of a record that is accepted. */
enum rigcactus_entries {
    RIGCACTUS_ADDED = 1,  /* its amount is in the total of its currency */
    RIGCACTUS_NULL = 2    /* its value is null: it is counted, and no total changes */
};

/* The entry that an answer of rigcactus_totals_add holds, one of enum rigcactus_entries; 0 after a refusal. */
static inline int rigcactus_entry(uint64_t answer)
{
    return (answer >> 8) & 0xFF;
}

/* ---- Lists -------------------------------------------------------------------------------------------------------- */

/* The kinds of a stretch's bounds: whether it has one, and whether the tick there belongs to the stretch. */
enum rigcactus_bounds {
    RIGCACTUS_UNBOUNDED = 0,  /* no bound: the stretch goes on without end. Its tick is given as 0 */
    RIGCACTUS_OPEN = 1,       /* the stretch goes up to the tick, which does not belong to it */
    RIGCACTUS_CLOSED = 2      /* the tick belongs to the stretch */
};

/* A stretch of a list: all times from its low to its high. Kinds are those of enum rigcactus_bounds. */
struct rigcactus_stretch {
    int low_kind;
    int64_t low_tick;
    int high_kind;
    int64_t high_tick;
};

/* The number that stands at an index of a list, counted from 0: eight bytes, lowest first, at any address. */
static inline int64_t rigcactus_number_at(const uint8_t *list, size_t index)
{
    uint64_t number = 0;
    for (size_t i = 8; i > 0; i--)
        number = number << 8 | list[8 * index + i - 1];
    return number <= INT64_MAX ? (int64_t)number : -(int64_t)(UINT64_MAX - number) - 1;
}

/* The stretch that stands at an index of a list, counted from 0 to below the count that rigcactus_list gave. */
static inline struct rigcactus_stretch rigcactus_stretch_at(const uint8_t *list, size_t index)
{
    struct rigcactus_stretch stretch;
    stretch.low_kind = (int)rigcactus_number_at(list, 4 * index);
    stretch.low_tick = rigcactus_number_at(list, 4 * index + 1);
    stretch.high_kind = (int)rigcactus_number_at(list, 4 * index + 2);
    stretch.high_tick = rigcactus_number_at(list, 4 * index + 3);
    return stretch;
}

/* ---- Totals ------------------------------------------------------------------------------------------------------- */

/* A row of a report: a currency, as "EUR", which ends in a zero byte, and its total in ten-thousandths of the currency's unit. */
struct rigcactus_total {
    char currency[4];
    int64_t total;
};

/* The row that stands at an index of a report, counted from 0 to below the count that rigcactus_totals_report gave. */
static inline struct rigcactus_total rigcactus_total_at(const uint64_t *report, size_t index)
{
    uint64_t currency = report[3 + 2 * index], total = report[4 + 2 * index];
    struct rigcactus_total row;
    for (int i = 0; i < 3; i++)
        row.currency[i] = (char)(currency >> 8 * i & 0xFF);
    row.currency[3] = '\0';
    row.total = total <= INT64_MAX ? (int64_t)total : -(int64_t)(UINT64_MAX - total) - 1;
    return row;
}

/* ---- Services ----------------------------------------------------------------------------------------------------- */

/*
 * Cuts a text: finds the longest beginning that is whole characters and has at most room bytes. rigcactus_length of the
 * answer is its length, from 0 to the smaller of text_len and room. The text itself is left as it is.
 *
 * text, text_len    the text, at most RIGCACTUS_MOST_BYTES. It need not end in a zero byte; one inside it is a character.
 * room              how many bytes may be kept. Any number: 0 keeps nothing, text_len or more keeps all.
 *
 * Refusals: RIGCACTUS_TOO_LONG; RIGCACTUS_NOT_UTF8, for which the whole text is judged, not only what would be kept.
 *
 * The bytes 5A 6F C3 AB are a name of three letters, the last of two bytes: a room of 3 keeps 2 bytes, a room of 4 keeps 4.
 */
uint64_t rigcactus_cut(const uint8_t *text, size_t text_len, uint64_t room);

/*
 * Turns a timestamp into a tick. Its form is YYYY, then MM, DD, hh, mm, ss, digits alone and each only after the one before; after
 * ss optionally `.` and 1 to 4 digits; after hh or finer optionally an offset from UTC, `+` or `-` with hh or hhmm. Nothing may
 * stand before it or after it. Parts that are missing take their first value. Years are 0001 to 9999, months 01 to 12, days those
 * of the month; hours 00 to 23, minutes and seconds 00 to 59; an offset is 14:00 at most, and its minutes are 00 to 59.
 *
 * text, text_len    the text. It need not end in a zero byte, and one inside it makes it no timestamp.
 * offset            the agreed offset, in minutes east of UTC, -RIGCACTUS_MOST_OFFSET to RIGCACTUS_MOST_OFFSET. It stands for
 *                   the offset of a text that has none, a bare date too. Another one is refused also where it is not needed.
 * tick              where the tick goes: an int64_t, not null and aligned as the type asks, that does not overlap the text.
 *                   It is written only if the text is accepted, and is unchanged after a refusal.
 *
 * rigcactus_precision of the answer is the count of digits written before any offset, those of a fraction included and the
 * point not: 4, 6, 8, 10, 12 or 14 to 18. The offset is subtracted, so that a tick is a time in UTC, and the tick of a text
 * in the year 0001 can be below zero: ticks are from -504000000 to 3155379479999999.
 *
 * Refusals: RIGCACTUS_OFFSET; RIGCACTUS_TOO_LONG; RIGCACTUS_VALUE for a text that is not of the form, whatever its bytes; for one
 * that is, RIGCACTUS_DATE if there is no such year, month or day, RIGCACTUS_CLOCK if there is no such hour, minute or second, and
 * RIGCACTUS_ZONE if there is no such offset.
 *
 * 19700101 with agreed offset 0 has precision 8 and tick 621355968000000, with agreed offset 60 an hour less. 19000229 is
 * RIGCACTUS_DATE, 1970010124 RIGCACTUS_CLOCK, 1970010100+1401 RIGCACTUS_ZONE; 1970-01-01 is RIGCACTUS_VALUE.
 */
uint64_t rigcactus_tick(const uint8_t *text, size_t text_len, int64_t offset, int64_t *tick);

/*
 * Checks a record: whether it is one XML element that holds one value of type TS, IVL_TS, QSU_TS, QSI_TS, QSD_TS, MO, II, CD
 * or EN, as its attribute xsi:type says, written as the rules ask and with no invariant broken. A null value, with its
 * nullFlavor, is a value too.
 *
 * record, record_len    the record, in UTF-8, at most RIGCACTUS_MOST_BYTES. White space may stand before it and after it, and
 *                       nothing else: no byte order mark, no prolog, no zero byte.
 * offset                the agreed offset, in minutes east of UTC, -RIGCACTUS_MOST_OFFSET to RIGCACTUS_MOST_OFFSET, for timestamps
 *                       that carry none. It decides whether the low of an interval is after its high. Another one is refused
 *                       also where it is not needed.
 *
 * The answer has a refusal and nothing else: it is 0 if the record is accepted.
 *
 * The low of an interval is after its high, which is RIGCACTUS_RULE, if its tick is after the high's; and where a closed high is
 * coarser than a second, so that it takes in the whole of its day, say, only if the tick is after the last one of that day. From
 * 2024043012 to 20240430, closed, is accepted; with an open high it is RIGCACTUS_RULE.
 *
 * Refusals: RIGCACTUS_OFFSET, RIGCACTUS_TOO_LONG, RIGCACTUS_NOT_UTF8, RIGCACTUS_MARKUP, RIGCACTUS_TYPE, RIGCACTUS_SHAPE,
 * RIGCACTUS_VALUE, RIGCACTUS_DATE, RIGCACTUS_CLOCK, RIGCACTUS_ZONE, RIGCACTUS_RULE: the first that applies anywhere in the record.
 * rigcactus_tick says when a timestamp is which; one that stands beside a nullFlavor is judged too. A wrong form anywhere in the
 * record comes before an impossible date anywhere, that before an impossible clock, and that before an impossible offset.
 *
 * <t xsi:type="MO" value="12.50" currency="EUR"/> is accepted; with value="12,50" it is RIGCACTUS_VALUE, without currency
 * RIGCACTUS_RULE. <t xsi:type="TS" value="20240230"/> is RIGCACTUS_DATE.
 */
uint64_t rigcactus_check(const uint8_t *record, size_t record_len, int64_t offset);

/*
 * Lists a set of times: writes the stretches that a record of type IVL_TS, QSU_TS, QSI_TS or QSD_TS means, earliest first. A
 * stretch is a run of times without a break that cannot be made longer. Every time that the set means is in one of them, and no
 * other time is. rigcactus_count of the answer says how many there are: 0 to RIGCACTUS_MOST_INTERVALS.
 *
 * record, record_len    the record, as for rigcactus_check.
 * offset                the agreed offset, as for rigcactus_check.
 * list, list_len        where the stretches go, and its length in bytes. There is room for list_len / RIGCACTUS_STRETCH_BYTES
 *                       stretches, rounded down; RIGCACTUS_MOST_LIST_BYTES is always enough. It may start at any address, may be
 *                       null with length 0, and must not overlap the record. A stretch is four numbers: low kind, low tick, high
 *                       kind, high tick, eight bytes each, lowest first; rigcactus_stretch_at reads them. What lies beyond the
 *                       stretches is unchanged, and after a refusal the whole list is.
 *
 * A bound is read by its tick and by how far it is written. If that is less than 14 digits, which is coarser than a second, a closed
 * high takes in the whole of its year, month, day, hour or minute, and is listed as open at the start of the next one; and an open
 * low leaves out the whole of it, and is listed as closed there. Other bounds are listed at their own tick. So 20240401 to 20240430,
 * both closed, is all of April, up to 1 May, open. A low that comes to lie after its high in this way leaves no time. Ticks of a
 * list are from -504000000 to 3155379480000000: 9999, closed, is open at the start of year 10000, which at offset 0 is
 * 3155378976000000.
 *
 * That the set is empty is a good answer, with count 0, and needs no room. Two ticks side by side do not touch: there is time
 * between them, so [1,2] and [3,4] are two stretches, and [1,3) with [3,5] is one.
 *
 * Refusals: those of rigcactus_check; RIGCACTUS_TYPE also for a record of another type; then RIGCACTUS_UNKNOWN_BOUND for a set or
 * interval that is null, or a bound that is missing, or null and not unbounded, anywhere in the record; RIGCACTUS_TOO_MANY for over
 * RIGCACTUS_MOST_INTERVALS elements of type IVL_TS; RIGCACTUS_NO_ROOM for a list that is too short.
 *
 * 1 to 3 May 2024, three whole days, without the hour from noon of 2 May, which is 2024050212 to 2024050212, both closed: count 2,
 * and the numbers 2, 638501184000000, 1, 638502480000000, 2, 638502516000000, 1, 638503776000000.
 */
uint64_t rigcactus_list(const uint8_t *record, size_t record_len, int64_t offset, uint8_t *list, size_t list_len);

/*
 * Prints a list of stretches as a record that can be sent: a QSU_TS named stay, with a term of type IVL_TS for each stretch, in
 * order. rigcactus_check accepts it, and rigcactus_list gives the same list for it, whichever allowed offset is agreed.
 * rigcactus_length of the answer is its length in bytes, at most RIGCACTUS_MOST_PRINTED_BYTES.
 *
 * list, list_len        the stretches, as rigcactus_list writes them: RIGCACTUS_STRETCH_BYTES times as many bytes as its count
 *                       says. It may start at any address, and may be null with length 0, which is a set without a time.
 * record, record_len    where the record goes, and its length in bytes; RIGCACTUS_MOST_PRINTED_BYTES is always enough. It may be
 *                       null with length 0, and must not overlap the list. No zero byte is put after the record. What lies
 *                       beyond it is unchanged, and after a refusal all bytes are.
 *
 * A bound is written as a timestamp in UTC of 18 digits, with its offset: 20240501000000.0000+0000. lowClosed and highClosed, after
 * the type, say whether it belongs to the stretch. An unbounded end has no flag: it is <low nullFlavor="NINF"/> or <high
 * nullFlavor="PINF"/>. A space stands before each attribute, and no other white space in the record. A list without a stretch is
 * written as one term that means no time, open on both sides at 00010101000000.0000+0000.
 *
 * A list is improper, whoever made it, if
 *
 * - its length is not four numbers a stretch: no multiple of RIGCACTUS_STRETCH_BYTES;
 * - it has over 32 stretches: more than RIGCACTUS_MOST_LIST_BYTES;
 * - a kind is none of enum rigcactus_bounds;
 * - an unbounded end has a tick that is not 0, or is neither the first stretch's low nor the last one's high;
 * - a stretch means no time: its low is after its high, or they are at one tick and not both closed;
 * - a stretch is not later than the one before it, overlaps it, or leaves no time between: [1,3) and (3,5] leave the tick 3,
 *   [1,3] and [4,5] what is between two ticks, [1,3] and (3,5] nothing.
 *
 * A list that rigcactus_list wrote is none of these, but it can have a tick that no timestamp at +0000 has, by an offset, or by a
 * closed high or an open low at the end of year 9999, which is read at the start of year 10000: years 0001 to 9999 are the ticks 0
 * to 3155378975999999.
 *
 * Refusals: RIGCACTUS_NOT_WRITABLE for an improper list, or a tick outside years 0001 to 9999; then RIGCACTUS_NO_ROOM exactly if
 * record_len is less than the record's length.
 *
 * The numbers 2, 638501184000000, 1, 638502480000000 are printed in 177 bytes, without the line breaks:
 *
 *     <stay xsi:type="QSU_TS"><term xsi:type="IVL_TS" lowClosed="true" highClosed="false">
 *     <low value="20240501000000.0000+0000"/><high value="20240502120000.0000+0000"/></term></stay>
 */
uint64_t rigcactus_print(const uint8_t *list, size_t list_len, uint8_t *record, size_t record_len);

/*
 * Compares two records of one type: TS, IVL_TS, MO, II, CD or EN. rigcactus_comparison of the answer is RIGCACTUS_YES, RIGCACTUS_NO
 * or RIGCACTUS_UNKNOWN. Where either value is null it is unknown, for two nulls too; else:
 *
 * TS        yes if tick and precision are the same; no if the spans of time that they mean share no tick; else unknown.
 * IVL_TS    the lows, the highs, and the flags of a side where both have a value: a no makes no, else an unknown makes unknown.
 *           Unbounded equals unbounded and differs from a value; against a missing or null bound all is unknown. Bounds are
 *           compared as they are written: up to 20240430, closed, and up to 20240501, open, differ, though both list the same.
 * MO        amount and currency. 12.5 and 12.50 are the same amount, and so are 0 and -0.
 * II        root and extension; that there is none equals only that there is none.
 * CD        code and codeSystem; unknown if either has no code. Names, version and display name do not count.
 * EN        no if the counts of parts differ, else the parts in order, by type and value, as for IVL_TS; a null part is unknown.
 *
 * first, first_len      the first record, as for rigcactus_check.
 * second, second_len    the second record. The two may overlap, or be the same.
 * offset                the agreed offset, as for rigcactus_check, for both.
 *
 * Refusals: those of rigcactus_check, for the first record, and if there are none for the second; then RIGCACTUS_TYPE against the
 * second if the types differ or are set types, also where a value is null. rigcactus_refused_record of the answer is the record:
 * 1 or 2; for RIGCACTUS_OFFSET it is 1.
 *
 * <t xsi:type="TS" value="20240501"/> and <t xsi:type="TS" value="2024050112"/> are unknown: the one may be any time of the day.
 */
uint64_t rigcactus_compare(const uint8_t *first, size_t first_len, const uint8_t *second, size_t second_len, int64_t offset);

/* ---- A day's totals ----------------------------------------------------------------------------------------------- */

/*
 * Opens a table: an empty one, for both desks. A table adds up records of money by desk and currency, exactly, and counts them. It
 * is memory of the caller, who opens it, hands it to rigcactus_totals_add with one record of a desk after another, to
 * rigcactus_totals_report at any time, and to rigcactus_totals_start where one of the desks begins another day.
 *
 * table    RIGCACTUS_TABLE_NUMBERS numbers of type uint64_t, aligned as the type asks, not null. What they are before does not
 *          count. All of them become 0.
 *
 * The answer is always 0: there is no refusal.
 *
 * The desks are 1 and 2. They share the table and nothing else: in a table that was opened, and that only these services have
 * changed since, whatever records one desk sends, and however the calls of both are mixed, the other desk's answers, counts,
 * totals and reports are those that it would get with a table to itself. Each has its own rows, its own counts and its own limits.
 *
 * A table is these numbers:
 *
 *     0           how many rows are held: one for each currency of each desk, 0 to RIGCACTUS_MOST_CURRENCIES of either
 *     1, 2, 3     how many records of desk 1 were added, null, and refused; together at most RIGCACTUS_MOST_COUNTED
 *     4, 5, 6     the same of desk 2
 *     7 to 102    32 rows, three numbers each: desk, currency and total. The rows held are the first ones, those of both desks
 *                 mixed; those past them say nothing
 *
 * A currency is its three letters, A to Z, in the three lowest bytes, the first letter lowest; the other bytes are 0: EUR is
 * 0x525545. A total is in ten-thousandths of the currency's unit, RIGCACTUS_PER_UNIT of them to one, from -RIGCACTUS_MOST_TOTAL to
 * RIGCACTUS_MOST_TOTAL, in two's complement. A table may be copied, stored and handed in again. One that no calls could have made
 * is treated like any other, if it is not damaged.
 */
uint64_t rigcactus_totals_open(uint64_t table[RIGCACTUS_TABLE_NUMBERS]);

/*
 * Starts a new day for one desk: its rows are given up, to be used again by either desk, and its three counts become 0. Of the
 * other desk nothing changes but where its rows stand: they move up, in the order in which they are, so that the rows held are the
 * first ones again. The numbers past the rows that are then held are left as they are.
 *
 * table    a table, as rigcactus_totals_open says.
 * desk     the desk, from 1 to RIGCACTUS_DESKS.
 *
 * The answer has a refusal and nothing else: it is 0 if the day is started.
 *
 * Refusals: RIGCACTUS_NO_DESK; RIGCACTUS_DAMAGED, for the tables for which rigcactus_totals_add gives it. Then nothing changes, so
 * that a damaged table is made good by rigcactus_totals_open alone.
 */
uint64_t rigcactus_totals_start(uint64_t table[RIGCACTUS_TABLE_NUMBERS], uint64_t desk);

/*
 * Adds a record of a desk to a table: the amount of a record of type MO to the desk's total of its currency. rigcactus_entry of
 * the answer is RIGCACTUS_ADDED, or RIGCACTUS_NULL for a null value. Where only these services have changed the table since it was
 * opened, each total is the sum of the amounts in that currency among the records of that desk that were added since its day
 * started: by rigcactus_totals_start, or else when the table was opened. A currency gets its row with the first record of the desk
 * that is added in it, also with the amount 0 or -0, and keeps it at total 0.
 *
 * table                 a table, as rigcactus_totals_open says, that overlaps no part of the record.
 * desk                  the desk that the record is of, from 1 to RIGCACTUS_DESKS.
 * record, record_len    the record, as for rigcactus_check.
 * offset                the agreed offset, as for rigcactus_check. Money has no timestamp, but another one is refused all the same.
 *
 * What changes in the table:
 *
 * - RIGCACTUS_ADDED: the desk's count of records added, by one, and the total. For a currency that is new to the desk also the row
 *   after those held, and their number.
 * - RIGCACTUS_NULL: the desk's count of null records, by one, and nothing else.
 * - A refusal, save the three that follow: the desk's count of refused records, by one, and nothing else.
 * - RIGCACTUS_NO_DESK, RIGCACTUS_DAMAGED and RIGCACTUS_DAY_FULL: nothing at all.
 *
 * So a desk's three counts together are how many records of it were given since its day started, but for those that were refused
 * as RIGCACTUS_DAMAGED or RIGCACTUS_DAY_FULL. Numbers past the rows that are then held are left as they are.
 *
 * Refusals: RIGCACTUS_NO_DESK exactly if the desk's number is not from 1 to RIGCACTUS_DESKS; RIGCACTUS_DAMAGED exactly if the
 * table has over 32 rows or one of neither desk, or if either desk, whichever is given, has over RIGCACTUS_MOST_CURRENCIES rows,
 * in one of them a currency that is not three letters A to Z or stands in another of them too, or a total out of range, or counts
 * whose sum is over RIGCACTUS_MOST_COUNTED; RIGCACTUS_DAY_FULL exactly if that sum is RIGCACTUS_MOST_COUNTED for the desk given;
 * then those of rigcactus_check, with RIGCACTUS_TYPE also for a record of another type, null or not, and so never RIGCACTUS_DATE,
 * RIGCACTUS_CLOCK or RIGCACTUS_ZONE, since money has no timestamp; then RIGCACTUS_NO_ROW for a currency that is new to the desk
 * where it holds RIGCACTUS_MOST_CURRENCIES; RIGCACTUS_TOTAL if the new total would be out of range. No calls of these services
 * damage a table that was opened.
 *
 * A day of desk 1 of five records of type MO: value="12.50" currency="EUR", value="3" currency="USD", nullFlavor="NASK",
 * value="12,50" currency="EUR", value="-12.5" currency="EUR". They are added, added, null, refused as RIGCACTUS_VALUE, and added.
 * Between the first and the second comes one of desk 2, value="7.25" currency="EUR", which is added. The table is then 3, 3, 1, 1,
 * 1, 0, 0, 1, 0x525545, 0, 2, 0x525545, 72500, 1, 0x445355, 30000, and 87 times 0: three rows; at desk 1 three added, one null,
 * one refused, at desk 2 one added; EUR 0 of desk 1, EUR 7.25 of desk 2, USD 3 of desk 1. With rigcactus_totals_start for desk 1
 * it becomes 1, 0, 0, 0, 1, 0, 0, 2, 0x525545, 72500, and what stood there from the eleventh number on.
 */
uint64_t rigcactus_totals_add(uint64_t table[RIGCACTUS_TABLE_NUMBERS], uint64_t desk, const uint8_t *record, size_t record_len,
                              int64_t offset);

/*
 * Reports a desk's day: writes its counts, and a row for each of its currencies, in the order in which they were first added at
 * that desk since its day started. rigcactus_count of the answer is how many rows there are: 0 to RIGCACTUS_MOST_CURRENCIES. The
 * table is left as it is.
 *
 * table     a table, as rigcactus_totals_open says.
 * desk      the desk, from 1 to RIGCACTUS_DESKS.
 * report    where the report goes: RIGCACTUS_REPORT_NUMBERS numbers of type uint64_t, aligned as the type asks, not null, that do
 *           not overlap the table. The first three are the counts of records added, null and refused. Then each row has two, its
 *           currency and its total, as in a table; rigcactus_total_at reads them. What lies beyond the rows is unchanged and says
 *           nothing, and after a refusal the whole report is unchanged.
 *
 * Refusals: RIGCACTUS_NO_DESK; RIGCACTUS_DAMAGED, for the tables for which rigcactus_totals_add gives it.
 *
 * For the day above, before it is started anew, the count of desk 1 is 2, and its report begins with 3, 1, 1, 0x525545, 0,
 * 0x445355, 30000. That of desk 2 has the count 1, and begins with 1, 0, 0, 0x525545, 72500.
 */
uint64_t rigcactus_totals_report(const uint64_t table[RIGCACTUS_TABLE_NUMBERS], uint64_t desk,
                                 uint64_t report[RIGCACTUS_REPORT_NUMBERS]);

#ifdef __cplusplus
}
#endif

#endif
