/*
 * The header: its numbers, names and helpers, and the services through it. It is compiled as C11 and as C++. What is due is written
 * here from the rules page.
 */
#include "rigcactus.h"
#include "rigcactus.h" /* twice does no harm */

#include <stdio.h>
#include <string.h>

static int failures = 0;

static void check(int holds, int line, const char *what)
{
    if (!holds) {
        fprintf(stderr, "tests/header.c:%d: does not hold: %s\n", line, what);
        failures++;
    }
}

#define CHECK(fact) check((fact), __LINE__, #fact)

static int is_name(int refusal, const char *name)
{
    return strcmp(rigcactus_refusal_name(refusal), name) == 0;
}

/* The page's numbers, and the names that stand beside them. */
static void check_refusals(void)
{
    CHECK(RIGCACTUS_ACCEPTED == 0 && is_name(0, "ACCEPTED"));
    CHECK(RIGCACTUS_OFFSET == 1 && is_name(1, "OFFSET"));
    CHECK(RIGCACTUS_TOO_LONG == 2 && is_name(2, "TOO LONG"));
    CHECK(RIGCACTUS_NOT_UTF8 == 3 && is_name(3, "NOT UTF-8"));
    CHECK(RIGCACTUS_MARKUP == 4 && is_name(4, "MARKUP"));
    CHECK(RIGCACTUS_TYPE == 5 && is_name(5, "TYPE"));
    CHECK(RIGCACTUS_SHAPE == 6 && is_name(6, "SHAPE"));
    CHECK(RIGCACTUS_VALUE == 7 && is_name(7, "VALUE"));
    CHECK(RIGCACTUS_RULE == 8 && is_name(8, "RULE"));
    CHECK(RIGCACTUS_UNKNOWN_BOUND == 9 && is_name(9, "UNKNOWN BOUND"));
    CHECK(RIGCACTUS_TOO_MANY == 10 && is_name(10, "TOO MANY"));
    CHECK(RIGCACTUS_NO_ROOM == 11 && is_name(11, "NO ROOM"));
    CHECK(RIGCACTUS_NOT_WRITABLE == 12 && is_name(12, "NOT WRITABLE"));
    CHECK(RIGCACTUS_DATE == 13 && is_name(13, "DATE"));
    CHECK(RIGCACTUS_CLOCK == 14 && is_name(14, "CLOCK"));
    CHECK(RIGCACTUS_ZONE == 15 && is_name(15, "ZONE"));
    CHECK(RIGCACTUS_NO_ROW == 16 && is_name(16, "NO ROW"));
    CHECK(RIGCACTUS_TOTAL == 17 && is_name(17, "TOTAL"));
    CHECK(RIGCACTUS_DAMAGED == 21 && is_name(21, "DAMAGED"));
    CHECK(RIGCACTUS_NO_DESK == 23 && is_name(23, "NO DESK"));
    CHECK(RIGCACTUS_DAY_FULL == 25 && is_name(25, "DAY FULL"));
    static const int unlisted[] = {18, 19, 20, 22, 24, 26, 255, -1};
    for (size_t i = 0; i < sizeof unlisted / sizeof unlisted[0]; i++)
        CHECK(is_name(unlisted[i], "UNLISTED"));
}

/*
 * Bits 0 to 7 are the refusal; the other bits are the length or the count, or bits 8 to 15 the precision or the entry, or bits 8 to 15 the
 * record and bits 16 to 23 the comparison.
 */
static void check_helpers(void)
{
    CHECK(rigcactus_refusal(0) == RIGCACTUS_ACCEPTED && rigcactus_length(0) == 0);
    CHECK(rigcactus_refusal(3) == RIGCACTUS_NOT_UTF8 && rigcactus_length(3) == 0);
    CHECK(rigcactus_refusal(0x400) == RIGCACTUS_ACCEPTED && rigcactus_length(0x400) == 4);
    CHECK(rigcactus_refusal(0x4000FF) == 255 && rigcactus_length(0x4000FF) == 0x4000);
    CHECK(rigcactus_refusal(UINT64_MAX) == 255 && rigcactus_length(UINT64_MAX) == (UINT64_MAX >> 8));
    CHECK(rigcactus_precision(0) == 0 && rigcactus_precision(7) == 0);
    CHECK(rigcactus_precision(0x400) == 4 && rigcactus_precision(0x1200) == 18);
    CHECK(rigcactus_precision(0x3412FF) == 0x12 && rigcactus_precision(UINT64_MAX) == 255);
    CHECK(RIGCACTUS_YES == 1 && RIGCACTUS_NO == 2 && RIGCACTUS_UNKNOWN == 3);
    CHECK(rigcactus_comparison(0x10000) == RIGCACTUS_YES && rigcactus_refused_record(0x10000) == 0 && rigcactus_refusal(0x10000) == 0);
    CHECK(rigcactus_comparison(0x205) == 0 && rigcactus_refused_record(0x205) == 2 && rigcactus_refusal(0x205) == RIGCACTUS_TYPE);
    CHECK(rigcactus_comparison(UINT64_MAX) == 255 && rigcactus_refused_record(UINT64_MAX) == 255);
    CHECK(rigcactus_count(0) == 0 && rigcactus_count(11) == 0);
    CHECK(rigcactus_count(0x2000) == 32 && rigcactus_count(UINT64_MAX) == (UINT64_MAX >> 8));
    CHECK(RIGCACTUS_ADDED == 1 && RIGCACTUS_NULL == 2);
    CHECK(rigcactus_entry(0x100) == RIGCACTUS_ADDED && rigcactus_entry(0x200) == RIGCACTUS_NULL);
    CHECK(rigcactus_entry(0) == 0 && rigcactus_entry(25) == 0 && rigcactus_entry(0x3412FF) == 0x12 && rigcactus_entry(UINT64_MAX) == 255);
}

static int is_cut(const uint8_t *text, size_t text_len, uint64_t room, size_t length)
{
    uint64_t answer = rigcactus_cut(text, text_len, room);
    return rigcactus_refusal(answer) == RIGCACTUS_ACCEPTED && rigcactus_length(answer) == length;
}

static int is_refused(const uint8_t *text, size_t text_len, uint64_t room, int refusal)
{
    uint64_t answer = rigcactus_cut(text, text_len, room);
    return rigcactus_refusal(answer) == refusal && rigcactus_length(answer) == 0;
}

static void check_cut(void)
{
    static const uint8_t name[] = {0x5A, 0x6F, 0xC3, 0xAB};
    CHECK(is_cut(name, 4, 0, 0));
    CHECK(is_cut(name, 4, 3, 2));
    CHECK(is_cut(name, 4, 4, 4));
    CHECK(is_cut(name, 4, UINT64_MAX, 4));
    CHECK(is_cut(name, 4, (uint64_t)1 << 32, 4));
    CHECK(is_refused(name, 3, 3, RIGCACTUS_NOT_UTF8));
    CHECK(is_refused(name, 3, 0, RIGCACTUS_NOT_UTF8));
    CHECK(is_refused(name + 3, 1, 1, RIGCACTUS_NOT_UTF8));
}

/* Nothing to cut: no byte is read, so any pointer will do. */
static void check_empty(void)
{
    static const uint8_t byte[] = {0xFF};
    CHECK(is_cut(NULL, 0, 0, 0));
    CHECK(is_cut(NULL, 0, 1, 0));
    CHECK(is_cut(NULL, 0, UINT64_MAX, 0));
    CHECK(is_cut(byte, 0, 1, 0));
}

/* Both sides of the limit, and that nothing lent is written. */
static void check_limit(void)
{
    static uint8_t text[RIGCACTUS_MOST_BYTES + 1];
    static uint8_t kept[RIGCACTUS_MOST_BYTES + 1];
    CHECK(RIGCACTUS_MOST_BYTES == 16384);
    memset(text, 'a', sizeof text);
    memcpy(kept, text, sizeof text);
    CHECK(is_cut(text, 16384, 16383, 16383));
    CHECK(is_cut(text, 16384, UINT64_MAX, 16384));
    CHECK(is_refused(text, 16385, 0, RIGCACTUS_TOO_LONG));
    CHECK(is_refused(text, 16385, UINT64_MAX, RIGCACTUS_TOO_LONG));
    CHECK(memcmp(text, kept, sizeof text) == 0);
}

/* What *tick is before each call: no timestamp has this tick. */
static const int64_t before = INT64_MIN + 7;

static int is_tick(const char *text, int64_t offset, int precision, int64_t due)
{
    int64_t tick = before;
    uint64_t answer = rigcactus_tick((const uint8_t *)text, strlen(text), offset, &tick);
    return rigcactus_refusal(answer) == RIGCACTUS_ACCEPTED && rigcactus_precision(answer) == precision && answer >> 16 == 0 && tick == due;
}

/* Refused, with no precision, and *tick as it was. */
static int is_refused_tick(const char *text, size_t text_len, int64_t offset, int refusal)
{
    int64_t tick = before;
    uint64_t answer = rigcactus_tick((const uint8_t *)text, text_len, offset, &tick);
    return rigcactus_refusal(answer) == refusal && rigcactus_precision(answer) == 0 && answer >> 8 == 0 && tick == before;
}

static void check_tick(void)
{
    CHECK(is_tick("0001", 0, 4, 0));
    CHECK(is_tick("19700101", 0, 8, INT64_C(621355968000000)));
    CHECK(is_tick("20000101000000.0001+0000", 0, 18, INT64_C(630822816000001)));
    CHECK(is_tick("0001010100+01", 0, 10, -36000000));
    CHECK(is_refused_tick("19000229", 8, 0, RIGCACTUS_DATE));
    CHECK(is_tick("20240501", 0, 8, INT64_C(638501184000000)));
    CHECK(is_tick("2024050212", 0, 10, INT64_C(638502480000000)));
    CHECK(is_tick("20240504", 0, 8, INT64_C(638503776000000)));
    CHECK(is_refused_tick("2024\0", 5, 0, RIGCACTUS_VALUE));
    CHECK(is_refused_tick("2024\xFF", 5, 0, RIGCACTUS_VALUE));
    CHECK(is_refused_tick(NULL, 0, 0, RIGCACTUS_VALUE));
}

/* What a text of the right form, or of a wrong one, gets as a timestamp: the same with every allowed offset; -1 if it is not. */
static int time_of(const char *text)
{
    int64_t tick = before;
    int refusal = rigcactus_refusal(rigcactus_tick((const uint8_t *)text, strlen(text), 0, &tick));
    if (refusal == RIGCACTUS_ACCEPTED)
        return tick != before ? RIGCACTUS_ACCEPTED : -1;
    for (int64_t offset = -840; offset <= 840; offset += 840)
        if (!is_refused_tick(text, strlen(text), offset, refusal))
            return -1;
    return is_refused_tick(text, strlen(text), 841, RIGCACTUS_OFFSET) ? refusal : -1;
}

enum { FINE = RIGCACTUS_ACCEPTED, VALUE = RIGCACTUS_VALUE, DATE = RIGCACTUS_DATE, CLOCK = RIGCACTUS_CLOCK, ZONE = RIGCACTUS_ZONE };

/* Years, months and days, from both sides of each limit; and that a date comes before a clock and an offset. */
static void check_dates(void)
{
    CHECK(time_of("0000") == DATE && time_of("0001") == FINE && time_of("9999") == FINE);
    CHECK(time_of("00000101") == DATE && time_of("00000230") == DATE && time_of("0000010100+00") == DATE);
    CHECK(time_of("202400") == DATE && time_of("202401") == FINE && time_of("202412") == FINE && time_of("202413") == DATE);
    CHECK(time_of("20240100") == DATE && time_of("20240101") == FINE && time_of("20240131") == FINE && time_of("20240132") == DATE);
    CHECK(time_of("19000228") == FINE && time_of("19000229") == DATE && time_of("20000228") == FINE && time_of("20000229") == FINE);
    CHECK(time_of("20000230") == DATE && time_of("20240229") == FINE && time_of("20240230") == DATE && time_of("20230229") == DATE);
    CHECK(time_of("20240430") == FINE && time_of("20240431") == DATE && time_of("20240531") == FINE && time_of("20240532") == DATE);
    CHECK(time_of("20240630") == FINE && time_of("20240631") == DATE && time_of("20240930") == FINE && time_of("20240931") == DATE);
    CHECK(time_of("20241130") == FINE && time_of("20241131") == DATE && time_of("99991231") == FINE && time_of("99991232") == DATE);
    CHECK(time_of("2024023009") == DATE && time_of("2024023024") == DATE && time_of("2024023009+1401") == DATE);
    CHECK(time_of("20240230246060.9999-9999") == DATE && time_of("00000000000000") == DATE && time_of("99999999999999") == DATE);
}

/* Clocks and offsets, from both sides of each limit; and that a clock comes before an offset. */
static void check_clocks(void)
{
    CHECK(time_of("2024050100") == FINE && time_of("2024050123") == FINE && time_of("2024050124") == CLOCK && time_of("2024050199") == CLOCK);
    CHECK(time_of("202405010059") == FINE && time_of("202405010060") == CLOCK && time_of("202405012400") == CLOCK);
    CHECK(time_of("20240501000059") == FINE && time_of("20240501000060") == CLOCK && time_of("20161231235960") == CLOCK);
    CHECK(time_of("20240501235959.9999") == FINE && time_of("20240501240000.0") == CLOCK && time_of("20240501000060.5") == CLOCK);
    CHECK(time_of("2024050124+01") == CLOCK && time_of("2024050124+1401") == CLOCK && time_of("202405010060-0060") == CLOCK);
    CHECK(time_of("2024050112+14") == FINE && time_of("2024050112+15") == ZONE && time_of("2024050112-14") == FINE);
    CHECK(time_of("2024050112+1400") == FINE && time_of("2024050112+1401") == ZONE && time_of("2024050112-1401") == ZONE);
    CHECK(time_of("2024050112+0059") == FINE && time_of("2024050112+0060") == ZONE && time_of("2024050112-0099") == ZONE);
    CHECK(time_of("2024050112+1359") == FINE && time_of("2024050112+1360") == ZONE && time_of("202405011230+1500") == ZONE);
    CHECK(time_of("20240501123000-00") == FINE && time_of("20240501123000.5+1401") == ZONE && time_of("2024050112-99") == ZONE);
}

/* A wrong form is VALUE, whatever date, clock and offset it would have. */
static void check_forms(void)
{
    static const char *const texts[] = {
        "", "202", "20245", "2024050", "0000Z", "2024-05-01", "20240230Z", "2024023", "20240230+01", "202413-1401", "2024050124Z", "2024050124+",
        "2024050124+1", "2024050124+140", "2024050124+14000", "2024050124+14:01", "202405012400.5", "20240501246060.", "20240501246060.00000",
        "20240501246060.5Z", " 20240230", "20240230 ", "+0000", "20240230T24", "2024050124++14", "2024050124+1a",
    };
    for (size_t i = 0; i < sizeof texts / sizeof texts[0]; i++)
        CHECK(time_of(texts[i]) == VALUE);
    CHECK(is_refused_tick("20240230\0", 9, 0, VALUE) && is_refused_tick("20240230\xFF", 9, 0, VALUE));
    CHECK(is_refused_tick("\xD9\xA0" "000", 5, 0, VALUE));
}

/* The constants beside it: a day after and a second after. */
static void check_tick_units(void)
{
    CHECK(RIGCACTUS_TICKS_PER_SECOND == 10000 && RIGCACTUS_TICKS_PER_DAY == 864000000);
    CHECK(RIGCACTUS_TICKS_PER_DAY == 24 * 60 * 60 * RIGCACTUS_TICKS_PER_SECOND);
    CHECK(sizeof RIGCACTUS_TICKS_PER_SECOND == 8 && sizeof RIGCACTUS_TICKS_PER_DAY == 8);
    CHECK(is_tick("00010102", 0, 8, RIGCACTUS_TICKS_PER_DAY));
    CHECK(is_tick("00010101000001", 0, 14, RIGCACTUS_TICKS_PER_SECOND));
}

/* Both sides of the limits, and the order of the refusals. */
static void check_tick_limits(void)
{
    static char digits[RIGCACTUS_MOST_BYTES + 1];
    CHECK(RIGCACTUS_MOST_OFFSET == 840);
    CHECK(is_tick("0001", RIGCACTUS_MOST_OFFSET, 4, -504000000));
    CHECK(is_tick("0001", -RIGCACTUS_MOST_OFFSET, 4, 504000000));
    CHECK(is_tick("99991231235959.9999", -840, 18, INT64_C(3155379479999999)));
    CHECK(is_refused_tick("0001", 4, 841, RIGCACTUS_OFFSET));
    CHECK(is_refused_tick("0001", 4, -841, RIGCACTUS_OFFSET));
    CHECK(is_refused_tick("0001", 4, INT64_MAX, RIGCACTUS_OFFSET));
    CHECK(is_refused_tick("0001", 4, INT64_MIN, RIGCACTUS_OFFSET));
    CHECK(is_refused_tick("0001", 4, INT64_C(1) << 32, RIGCACTUS_OFFSET));
    memset(digits, '1', sizeof digits);
    CHECK(is_refused_tick(digits, 16384, 840, RIGCACTUS_VALUE));
    CHECK(is_refused_tick(digits, 16385, 840, RIGCACTUS_TOO_LONG));
    CHECK(is_refused_tick(digits, 16385, 841, RIGCACTUS_OFFSET));
}

static int is_checked(const char *record, int64_t offset, int refusal)
{
    uint64_t answer = rigcactus_check((const uint8_t *)record, strlen(record), offset);
    return rigcactus_refusal(answer) == refusal && answer >> 8 == 0;
}

/* One record for each number. */
static void check_check(void)
{
    CHECK(is_checked("<t xsi:type=\"MO\" value=\"12.50\" currency=\"EUR\"/>", 0, RIGCACTUS_ACCEPTED));
    CHECK(is_checked("<t xsi:type=\"MO\" value=\"12.50\" currency=\"EUR\"/>", 841, RIGCACTUS_OFFSET));
    CHECK(is_checked("<t xsi:type=\"MO\" value=\"12.50\" currency=\"EUR\xFF\"/>", 0, RIGCACTUS_NOT_UTF8));
    CHECK(is_checked("<t xsi:type=\"MO\" value=\"12.50\" currency=\"EUR\">", 0, RIGCACTUS_MARKUP));
    CHECK(is_checked("<t value=\"12.50\" currency=\"EUR\"/>", 0, RIGCACTUS_TYPE));
    CHECK(is_checked("<t xsi:type=\"MO\" value=\"12.50\" currency=\"EUR\" root=\"1.2\"/>", 0, RIGCACTUS_SHAPE));
    CHECK(is_checked("<t xsi:type=\"MO\" value=\"12,50\" currency=\"EUR\"/>", 0, RIGCACTUS_VALUE));
    CHECK(is_checked("<t xsi:type=\"MO\" value=\"12.50\"/>", 0, RIGCACTUS_RULE));
}

/* No bytes are no element. Both sides of the limits; nothing lent is written. */
static void check_check_limits(void)
{
    static const char record[] = "<t xsi:type=\"TS\" value=\"2024\"/>";
    static uint8_t padded[RIGCACTUS_MOST_BYTES + 1];
    static uint8_t kept[RIGCACTUS_MOST_BYTES + 1];
    memset(padded, ' ', sizeof padded);
    memcpy(padded, record, strlen(record));
    memcpy(kept, padded, sizeof padded);
    CHECK(rigcactus_check(NULL, 0, 0) == RIGCACTUS_MARKUP);
    CHECK(rigcactus_check(NULL, 0, -841) == RIGCACTUS_OFFSET);
    CHECK(rigcactus_check(padded, 16384, 840) == RIGCACTUS_ACCEPTED);
    CHECK(rigcactus_check(padded, 16385, -840) == RIGCACTUS_TOO_LONG);
    CHECK(rigcactus_check(padded, 16385, INT64_MIN) == RIGCACTUS_OFFSET);
    CHECK(rigcactus_check(padded, strlen(record) - 1, 0) == RIGCACTUS_MARKUP);
    CHECK(memcmp(padded, kept, sizeof padded) == 0);
}

/* Numbers of eight bytes, lowest first, at any address; kinds and ticks of a stretch. */
static void check_list_helpers(void)
{
    static const uint8_t list[] = {
        0xAA, /* the list starts after it */
        1, 2, 3, 4, 5, 6, 7, 8, 0xFF, 0xFF, 0xFF, 0xFF, 0xFF, 0xFF, 0xFF, 0xFF,
        0, 0, 0, 0, 0, 0, 0, 0x80, 0xFF, 0xFF, 0xFF, 0xFF, 0xFF, 0xFF, 0xFF, 0x7F,
        1, 0, 0, 0, 0, 0, 0, 0, 0xFE, 0xFF, 0xFF, 0xFF, 0xFF, 0xFF, 0xFF, 0xFF,
        2, 0, 0, 0, 0, 0, 0, 0, 0, 1, 0, 0, 0, 0, 0, 0,
    };
    CHECK(rigcactus_number_at(list + 1, 0) == INT64_C(0x0807060504030201));
    CHECK(rigcactus_number_at(list + 1, 1) == -1);
    CHECK(rigcactus_number_at(list + 1, 2) == INT64_MIN && rigcactus_number_at(list + 1, 3) == INT64_MAX);
    struct rigcactus_stretch stretch = rigcactus_stretch_at(list + 1, 1);
    CHECK(stretch.low_kind == RIGCACTUS_OPEN && stretch.low_tick == -2);
    CHECK(stretch.high_kind == RIGCACTUS_CLOSED && stretch.high_tick == 256);
    CHECK(RIGCACTUS_UNBOUNDED == 0 && RIGCACTUS_OPEN == 1 && RIGCACTUS_CLOSED == 2);
    CHECK(RIGCACTUS_MOST_INTERVALS == 32 && RIGCACTUS_STRETCH_BYTES == 32 && RIGCACTUS_MOST_LIST_BYTES == 1024);
}

#define DAYS "lowClosed=\"true\" highClosed=\"false\"><low value=\"20240501\"/><high value=\"20240504\"/>"
#define NOON "lowClosed=\"true\" highClosed=\"true\"><low value=\"2024050212\"/><high value=\"2024050212\"/>"
#define STAY \
    "<stay xsi:type=\"QSD_TS\"><minuend xsi:type=\"IVL_TS\" " DAYS "</minuend><subtrahend xsi:type=\"IVL_TS\" " NOON "</subtrahend></stay>"

/* A list, with bytes before it and after it, and what every byte is before each call. */
enum { BESIDE = 64, FILL = 0x5C };
static uint8_t lent[BESIDE + RIGCACTUS_MOST_LIST_BYTES + BESIDE];

static uint64_t list_of(const char *record, int64_t offset, size_t list_len)
{
    memset(lent, FILL, sizeof lent);
    return rigcactus_list((const uint8_t *)record, strlen(record), offset, lent + BESIDE, list_len);
}

/* Whether all bytes are as before, but for so many at the list's start. */
static int is_kept(size_t written)
{
    for (size_t i = 0; i < sizeof lent; i++)
        if ((i < BESIDE || i >= BESIDE + written) && lent[i] != FILL)
            return 0;
    return 1;
}

static int is_stretch(size_t index, int low_kind, int64_t low_tick, int high_kind, int64_t high_tick)
{
    struct rigcactus_stretch stretch = rigcactus_stretch_at(lent + BESIDE, index);
    return stretch.low_kind == low_kind && stretch.low_tick == low_tick && stretch.high_kind == high_kind && stretch.high_tick == high_tick;
}

static int is_refused_list(const char *record, int64_t offset, size_t list_len, int refusal)
{
    return list_of(record, offset, list_len) == (uint64_t)refusal && is_kept(0);
}

/* The whole example of the rules page, in lists of several lengths; an offset; no stretch, with no list. */
static void check_list(void)
{
    static const size_t lengths[] = {64, 65, 95, 96, 1024};
    for (size_t i = 0; i < sizeof lengths / sizeof lengths[0]; i++) {
        uint64_t answer = list_of(STAY, 0, lengths[i]);
        CHECK(rigcactus_refusal(answer) == RIGCACTUS_ACCEPTED && rigcactus_count(answer) == 2);
        CHECK(is_stretch(0, RIGCACTUS_CLOSED, INT64_C(638501184000000), RIGCACTUS_OPEN, INT64_C(638502480000000)));
        CHECK(is_stretch(1, RIGCACTUS_CLOSED, INT64_C(638502516000000), RIGCACTUS_OPEN, INT64_C(638503776000000)));
        CHECK(is_kept(64));
    }
    CHECK(list_of("<t xsi:type=\"IVL_TS\" " DAYS "</t>", 840, 32) == 0x100 && is_kept(32));
    CHECK(is_stretch(0, RIGCACTUS_CLOSED, INT64_C(638500680000000), RIGCACTUS_OPEN, INT64_C(638503272000000)));
    CHECK(list_of("<t xsi:type=\"IVL_TS\"><low nullFlavor=\"NINF\"/><high nullFlavor=\"PINF\"/></t>", 0, 32) == 0x100 && is_kept(32));
    CHECK(is_stretch(0, RIGCACTUS_UNBOUNDED, 0, RIGCACTUS_UNBOUNDED, 0));
    static const char none[] = "<t xsi:type=\"IVL_TS\" lowClosed=\"true\" highClosed=\"false\"><low value=\"2024\"/><high value=\"2024\"/></t>";
    CHECK(list_of(none, 0, 0) == 0 && is_kept(0));
    CHECK(list_of(none, 0, 1024) == 0 && is_kept(0));
    CHECK(rigcactus_list((const uint8_t *)none, strlen(none), 0, NULL, 0) == 0);
}

/* One record for each number that listing can give. */
static void check_list_refusals(void)
{
    CHECK(is_refused_list(STAY, 0, 63, RIGCACTUS_NO_ROOM));
    CHECK(is_refused_list(STAY, 0, 32, RIGCACTUS_NO_ROOM));
    CHECK(is_refused_list(STAY, 0, 0, RIGCACTUS_NO_ROOM));
    CHECK(is_refused_list(STAY, 841, 64, RIGCACTUS_OFFSET));
    CHECK(is_refused_list(STAY "\xFF", 0, 64, RIGCACTUS_NOT_UTF8));
    CHECK(is_refused_list(STAY STAY, 0, 64, RIGCACTUS_MARKUP));
    CHECK(is_refused_list("<t xsi:type=\"MO\" value=\"12,50\"/>", 0, 64, RIGCACTUS_TYPE));
    CHECK(is_refused_list("<t xsi:type=\"QSU_TS\"/>", 0, 64, RIGCACTUS_SHAPE));
    CHECK(is_refused_list("<t xsi:type=\"IVL_TS\" lowClosed=\"yes\"/>", 0, 64, RIGCACTUS_VALUE));
    CHECK(is_refused_list("<t xsi:type=\"IVL_TS\"><low value=\"2024\"/></t>", 0, 64, RIGCACTUS_RULE));
    CHECK(is_refused_list("<t xsi:type=\"IVL_TS\"/>", 0, 64, RIGCACTUS_UNKNOWN_BOUND));

    static char many[RIGCACTUS_MOST_BYTES + 1];
    strcpy(many, "<t xsi:type=\"QSU_TS\">");
    for (int i = 0; i < RIGCACTUS_MOST_INTERVALS; i++)
        strcat(many, "<term xsi:type=\"IVL_TS\" " DAYS "</term>");
    size_t length = strlen(many);
    strcat(many, "</t>");
    CHECK(list_of(many, 0, 32) == 0x100 && is_kept(32));
    strcpy(many + length, "<term xsi:type=\"IVL_TS\" " NOON "</term></t>");
    CHECK(is_refused_list(many, 0, 1024, RIGCACTUS_TOO_MANY));
    length = strlen(many);
    memset(many + length, ' ', sizeof many - length);
    memset(lent, FILL, sizeof lent);
    CHECK(rigcactus_list((const uint8_t *)many, sizeof many, 0, lent, 1024) == RIGCACTUS_TOO_LONG && is_kept(0));
}

#define TIME(value) "<t xsi:type=\"TS\" value=\"" value "\"/>"
#define NULL_TIME(value) "<t xsi:type=\"TS\" nullFlavor=\"NI\" value=\"" value "\"/>"
#define BOUNDS(name, low, high) \
    "<" name " xsi:type=\"IVL_TS\" lowClosed=\"true\" highClosed=\"true\"><low value=\"" low "\"/><high value=\"" high "\"/></" name ">"

#define OPEN_BOUNDS(low, high) "<t xsi:type=\"IVL_TS\" lowClosed=\"false\" highClosed=\"false\"><low value=\"" low "\"/><high value=\"" high "\"/></t>"

/* Whether an interval is one stretch, with this low, closed, and this high. */
static int is_listed(const char *record, int64_t offset, int64_t low_tick, int high_kind, int64_t high_tick)
{
    return list_of(record, offset, 32) == 0x100 && is_kept(32) && is_stretch(0, RIGCACTUS_CLOSED, low_tick, high_kind, high_tick);
}

/* A closed high, and an open low, of each precision; the end of the calendar; a low in the last day of its high, and a tick after it. */
static void check_list_units(void)
{
    static const int64_t april = INT64_C(638475264000000), may = INT64_C(638501184000000), end = INT64_C(3155378976000000);
    static const int64_t hour = 60 * 60 * RIGCACTUS_TICKS_PER_SECOND, minute = 60 * RIGCACTUS_TICKS_PER_SECOND;
    CHECK(is_listed(BOUNDS("t", "20240401", "202404"), 0, april, RIGCACTUS_OPEN, may));
    CHECK(is_listed(BOUNDS("t", "202404", "20240430"), 0, april, RIGCACTUS_OPEN, may));
    CHECK(is_listed(BOUNDS("t", "20240401", "2024043023"), 0, april, RIGCACTUS_OPEN, may));
    CHECK(is_listed(BOUNDS("t", "20240401", "202404302359"), 0, april, RIGCACTUS_OPEN, may));
    CHECK(is_listed(BOUNDS("t", "20240401", "20240430235959"), 0, april, RIGCACTUS_CLOSED, may - RIGCACTUS_TICKS_PER_SECOND));
    CHECK(is_listed(BOUNDS("t", "20240401", "20240430235959.9999"), 0, april, RIGCACTUS_CLOSED, may - 1));
    CHECK(is_listed(BOUNDS("t", "2024", "2024"), 0, INT64_C(638396640000000), RIGCACTUS_OPEN, INT64_C(638712864000000)));
    CHECK(is_listed(OPEN_BOUNDS("202403", "202405"), 0, april, RIGCACTUS_OPEN, may));
    CHECK(is_listed(OPEN_BOUNDS("20240331", "20240501"), 0, april, RIGCACTUS_OPEN, may));
    CHECK(is_listed(OPEN_BOUNDS("2024040100", "2024050100"), 0, april + hour, RIGCACTUS_OPEN, may));
    CHECK(is_listed(OPEN_BOUNDS("202404010000", "202405010000"), 0, april + minute, RIGCACTUS_OPEN, may));
    CHECK(is_listed(BOUNDS("t", "20240401", "9999"), 0, april, RIGCACTUS_OPEN, end));
    CHECK(is_listed(BOUNDS("t", "20240401", "9999"), 840, april - 14 * hour, RIGCACTUS_OPEN, end - 14 * hour));
    CHECK(is_listed(BOUNDS("t", "20240401", "9999"), -840, april + 14 * hour, RIGCACTUS_OPEN, INT64_C(3155379480000000)));
    CHECK(is_listed(BOUNDS("t", "2024043012", "20240430"), 0, may - 12 * hour, RIGCACTUS_OPEN, may));
    CHECK(is_listed(BOUNDS("t", "20240430235959.9999", "20240430"), 0, may - 1, RIGCACTUS_OPEN, may));
    CHECK(is_refused_list(BOUNDS("t", "20240501000000.0000", "20240430"), 0, 32, RIGCACTUS_RULE));
    CHECK(is_refused_list(OPEN_BOUNDS("2024043012", "20240430"), 0, 32, RIGCACTUS_RULE));
    CHECK(list_of(OPEN_BOUNDS("20240430", "2024043012"), 0, 32) == 0 && is_kept(0));
}

static uint64_t comparison_of(const char *first, const char *second, int64_t offset)
{
    return rigcactus_compare((const uint8_t *)first, strlen(first), (const uint8_t *)second, strlen(second), offset);
}

/*
 * What checking and listing refuse a record for, which is the same but for a record that is no set, and comparing too, where it is the first record
 * or the second; -1 if they do not agree. Nothing lent is written.
 */
static int record_of(const char *record)
{
    static uint8_t kept[RIGCACTUS_MOST_BYTES];
    size_t length = strlen(record);
    memcpy(kept, record, length);
    uint64_t refusal = rigcactus_check((const uint8_t *)record, length, 0);
    int is_point = strstr(record, "\"TS\"") != NULL;
    int agrees = is_refused_list(record, 0, RIGCACTUS_MOST_LIST_BYTES, is_point ? RIGCACTUS_TYPE : (int)refusal)
        && is_refused_list(record, 0, 0, is_point ? RIGCACTUS_TYPE : (int)refusal)
        && comparison_of(record, record, 0) == (0x100 | refusal) && comparison_of(record, TIME("?"), 0) == (0x100 | refusal)
        && comparison_of(TIME("2024"), record, 0) == (0x200 | refusal) && comparison_of(STAY, record, 0) == (0x200 | refusal)
        && comparison_of(TIME("?"), record, 0) == (0x100 | RIGCACTUS_VALUE) && comparison_of(TIME("2024"), record, 841) == (0x100 | RIGCACTUS_OFFSET)
        && is_checked(record, 840, (int)refusal) && is_checked(record, -840, (int)refusal) && memcmp(kept, record, length) == 0;
    return agrees ? (int)refusal : -1;
}

/* An impossible time anywhere in a record: a date, then a clock, then an offset, after a wrong form anywhere and before a broken invariant. */
static void check_times_of_records(void)
{
    CHECK(record_of(TIME("20240230")) == DATE && record_of(TIME("2024050124")) == CLOCK && record_of(TIME("2024050112+1401")) == ZONE);
    CHECK(record_of(TIME("0000")) == DATE && record_of(TIME("2024050124+1401")) == CLOCK && record_of(TIME("2024-05-01")) == VALUE);
    CHECK(record_of(NULL_TIME("20240230")) == DATE && record_of(NULL_TIME("2024050124")) == CLOCK && record_of(NULL_TIME("2024050112+15")) == ZONE);
    CHECK(record_of(NULL_TIME("2024-05-01")) == VALUE && is_checked(NULL_TIME("20240501"), 0, RIGCACTUS_RULE));
    CHECK(record_of(TIME("2024023&amp;")) == VALUE && record_of("<t xsi:type=\"TS\" value=\"20240230\" nullFlavor=\"?\"/>") == VALUE);
    CHECK(record_of("<t xsi:type=\"IVL_TS\" value=\"20240230\"/>") == RIGCACTUS_SHAPE && record_of(BOUNDS("t", "0000", "2024") "<t/>") == RIGCACTUS_MARKUP);
    CHECK(record_of(BOUNDS("t", "20240230", "2024")) == DATE && record_of(BOUNDS("t", "2024", "20240230")) == DATE);
    CHECK(record_of(BOUNDS("t", "2024050124", "20240230")) == DATE && record_of(BOUNDS("t", "20240230", "2024050124")) == DATE);
    CHECK(record_of(BOUNDS("t", "2024050112+15", "2024050124")) == CLOCK && record_of(BOUNDS("t", "2024050124", "2024050112+15")) == CLOCK);
    CHECK(record_of(BOUNDS("t", "2024050112+15", "2024")) == ZONE && record_of(BOUNDS("t", "2025", "2024050112+15")) == ZONE);
    CHECK(record_of(BOUNDS("t", "20240230", "2024-05-01")) == VALUE && record_of(BOUNDS("t", "", "2024050124")) == VALUE);
    CHECK(record_of("<t xsi:type=\"IVL_TS\" lowClosed=\"yes\"><low value=\"20240230\"/></t>") == VALUE);
    CHECK(record_of("<t xsi:type=\"IVL_TS\"><low value=\"20240230\"/></t>") == DATE); /* with its flag missing, which is RULE */
    CHECK(record_of("<t xsi:type=\"IVL_TS\" nullFlavor=\"NI\"><low value=\"2024050124\"/></t>") == CLOCK);
    CHECK(record_of("<t xsi:type=\"QSU_TS\">" BOUNDS("term", "2025", "2024") BOUNDS("term", "2024050112+15", "2024") "</t>") == ZONE);
    CHECK(record_of("<t xsi:type=\"QSD_TS\">" BOUNDS("minuend", "2024050124", "2024") BOUNDS("subtrahend", "2024", "20240230") "</t>") == DATE);
    CHECK(record_of("<t xsi:type=\"QSI_TS\"><term xsi:type=\"IVL_TS\"/>" BOUNDS("term", "2024", "2024050124") "</t>") == CLOCK);
    CHECK(record_of("<t xsi:type=\"QSU_TS\">" BOUNDS("term", "20240230", "2024") "<term/></t>") == RIGCACTUS_TYPE);
}

/* A list to print, at an odd address, and a record, with bytes before it and after it. */
static uint8_t to_print[1 + RIGCACTUS_MOST_LIST_BYTES + RIGCACTUS_STRETCH_BYTES];
static uint8_t lent_record[BESIDE + RIGCACTUS_MOST_PRINTED_BYTES + BESIDE];

static void put_number(size_t index, int64_t number)
{
    for (size_t i = 0; i < 8; i++)
        to_print[1 + 8 * index + i] = (uint8_t)((uint64_t)number >> 8 * i);
}

static void put_stretch(size_t index, int64_t low_kind, int64_t low_tick, int64_t high_kind, int64_t high_tick)
{
    put_number(4 * index, low_kind);
    put_number(4 * index + 1, low_tick);
    put_number(4 * index + 2, high_kind);
    put_number(4 * index + 3, high_tick);
}

static uint64_t print_of(size_t list_len, size_t record_len)
{
    memset(lent_record, FILL, sizeof lent_record);
    return rigcactus_print(to_print + 1, list_len, lent_record + BESIDE, record_len);
}

/* Whether the record begins with this text, and all other bytes are as before. */
static int is_record(const char *text)
{
    size_t length = strlen(text);
    for (size_t i = 0; i < sizeof lent_record; i++)
        if ((i < BESIDE || i >= BESIDE + length) && lent_record[i] != FILL)
            return 0;
    return memcmp(lent_record + BESIDE, text, length) == 0;
}

/* Whether a list of so many bytes is printed so: in a record that is long enough or longer, and in no shorter one. */
static int is_printed(size_t list_len, const char *text)
{
    uint64_t answer = (uint64_t)strlen(text) << 8;
    int fits = print_of(list_len, strlen(text)) == answer && is_record(text) && rigcactus_length(answer) == strlen(text);
    int fits_again = print_of(list_len, RIGCACTUS_MOST_PRINTED_BYTES) == answer && is_record(text);
    int has_no_room = print_of(list_len, strlen(text) - 1) == RIGCACTUS_NO_ROOM && is_record("");
    return fits && fits_again && has_no_room && print_of(list_len, 0) == RIGCACTUS_NO_ROOM && is_record("");
}

/* Whether a list of so many bytes is NOT WRITABLE, with room and without, and nothing is written. */
static int is_not_writable(size_t list_len)
{
    return print_of(list_len, RIGCACTUS_MOST_PRINTED_BYTES) == RIGCACTUS_NOT_WRITABLE && is_record("")
        && print_of(list_len, 0) == RIGCACTUS_NOT_WRITABLE && is_record("");
}

#define FLAGS(low, high) "<term xsi:type=\"IVL_TS\" lowClosed=\"" low "\" highClosed=\"" high "\">"
#define LOW(value) "<low value=\"" value "+0000\"/>"
#define HIGH(value) "<high value=\"" value "+0000\"/></term>"
#define PRINTED(terms) "<stay xsi:type=\"QSU_TS\">" terms "</stay>"
#define FIRST_TICK "00010101000000.0000"
#define LAST_TICK "99991231235959.9999"

/* The whole example of the rules page; no stretch, also with no list and no record; unbounded ends; the first tick and the last. */
static void check_print(void)
{
    put_stretch(0, 2, INT64_C(638501184000000), 1, INT64_C(638502480000000));
    put_stretch(1, 2, INT64_C(638502516000000), 1, INT64_C(638503776000000));
    CHECK(is_printed(64, PRINTED(FLAGS("true", "false") LOW("20240501000000.0000") HIGH("20240502120000.0000")
                                 FLAGS("true", "false") LOW("20240502130000.0000") HIGH("20240504000000.0000"))));
    CHECK(rigcactus_length(print_of(64, RIGCACTUS_MOST_PRINTED_BYTES)) == 323);
    static const char none[] = PRINTED(FLAGS("false", "false") LOW(FIRST_TICK) HIGH(FIRST_TICK));
    CHECK(is_printed(0, none) && strlen(none) == 178);
    CHECK(rigcactus_print(NULL, 0, lent_record, 178) == 178 << 8 && memcmp(lent_record, none, 178) == 0);
    CHECK(rigcactus_print(NULL, 0, NULL, 0) == RIGCACTUS_NO_ROOM);
    put_stretch(0, 0, 0, 0, 0);
    CHECK(is_printed(32, PRINTED("<term xsi:type=\"IVL_TS\"><low nullFlavor=\"NINF\"/><high nullFlavor=\"PINF\"/></term>")));
    put_stretch(0, 0, 0, 2, 0);
    put_stretch(1, 1, INT64_C(3155378975999999), 0, 0);
    CHECK(is_printed(64, PRINTED("<term xsi:type=\"IVL_TS\" highClosed=\"true\"><low nullFlavor=\"NINF\"/>" HIGH(FIRST_TICK)
                                 "<term xsi:type=\"IVL_TS\" lowClosed=\"false\">" LOW(LAST_TICK) "<high nullFlavor=\"PINF\"/></term>")));
}

/* The refusal of a list, which is the same without room; -1 if it is not. */
static int refusal_of(size_t list_len)
{
    if (rigcactus_refusal(print_of(list_len, RIGCACTUS_MOST_PRINTED_BYTES)) == RIGCACTUS_ACCEPTED)
        return RIGCACTUS_ACCEPTED;
    return is_not_writable(list_len) ? RIGCACTUS_NOT_WRITABLE : -1;
}

/* The refusal of a list of one stretch, and of two: the first from tick 1 on, the second up to tick 9. */
static int one(int64_t low_kind, int64_t low_tick, int64_t high_kind, int64_t high_tick)
{
    put_stretch(0, low_kind, low_tick, high_kind, high_tick);
    return refusal_of(32);
}

static int two(int64_t high_kind, int64_t high_tick, int64_t low_kind, int64_t low_tick)
{
    put_stretch(0, 2, 1, high_kind, high_tick);
    put_stretch(1, low_kind, low_tick, 2, 9);
    return refusal_of(64);
}

/* Clause by clause, with what is just proper beside what is not. */
static void check_improper(void)
{
    enum { GOOD = RIGCACTUS_ACCEPTED, BAD = RIGCACTUS_NOT_WRITABLE };
    CHECK(two(2, 3, 2, 5) == GOOD);
    for (size_t length = 0; length <= 64; length++)
        CHECK(refusal_of(length) == (length % 32 == 0 ? GOOD : BAD));
    CHECK(one(2, 1, 2, 1) == GOOD && one(3, 1, 2, 1) == BAD && one(2, 1, 3, 1) == BAD && one(-1, 1, 2, 1) == BAD && one(2, 1, INT64_MIN, 1) == BAD);
    CHECK(one(2 + (INT64_C(1) << 32), 1, 2, 1) == BAD && one(2, 1, 2 + (INT64_C(1) << 8), 1) == BAD);
    CHECK(one(0, 0, 2, 1) == GOOD && one(0, 1, 2, 1) == BAD && one(0, -1, 2, 1) == BAD);
    CHECK(one(2, 1, 0, 0) == GOOD && one(2, 1, 0, 1) == BAD && one(2, 1, 0, INT64_MIN) == BAD);
    CHECK(two(0, 0, 2, 5) == BAD && two(2, 5, 0, 0) == BAD);
    CHECK(one(1, 3, 1, 4) == GOOD && one(1, 3, 1, 3) == BAD && one(1, 3, 2, 3) == BAD && one(2, 3, 1, 3) == BAD && one(2, 4, 2, 3) == BAD);
    CHECK(two(1, 3, 1, 3) == GOOD && two(2, 3, 2, 4) == GOOD && two(2, 3, 1, 4) == GOOD && two(1, 3, 2, 4) == GOOD);
    CHECK(two(2, 3, 1, 3) == BAD && two(1, 3, 2, 3) == BAD);
    CHECK(two(2, 3, 2, 3) == BAD && two(2, 4, 2, 3) == BAD && two(1, 4, 1, 3) == BAD);
    put_stretch(0, 2, 5, 2, 6);
    put_stretch(1, 2, 1, 2, 2);
    CHECK(refusal_of(64) == BAD);
}

/* Years 0001 to 9999, from both sides, for bounds that belong to the stretch and for those that do not. */
static void check_print_years(void)
{
    static const int64_t last = INT64_C(3155378975999999);
    enum { GOOD = RIGCACTUS_ACCEPTED, BAD = RIGCACTUS_NOT_WRITABLE };
    for (int kind = RIGCACTUS_OPEN; kind <= RIGCACTUS_CLOSED; kind++) {
        CHECK(one(kind, 0, 2, 1) == GOOD && one(kind, -1, 2, 1) == BAD && one(kind, INT64_MIN, 2, 1) == BAD);
        CHECK(one(2, 1, kind, last) == GOOD && one(2, 1, kind, last + 1) == BAD && one(2, 1, kind, INT64_MAX) == BAD);
        CHECK(one(0, 0, kind, -1) == BAD && one(kind, last + 1, 0, 0) == BAD);
    }
    CHECK(one(2, 1, RIGCACTUS_OPEN, INT64_C(3155379480000000)) == BAD); /* where year 9999 ends as far west as can be */
}

/* Both sides of the limits, the longest record, and that the list is left as it is. */
static void check_print_limits(void)
{
    static uint8_t kept[sizeof to_print];
    for (int i = 0; i <= RIGCACTUS_MOST_INTERVALS; i++)
        put_stretch((size_t)i, 1, i, 1, i + 1);
    memcpy(kept, to_print, sizeof kept);
    CHECK(RIGCACTUS_MOST_PRINTED_BYTES == 4735);
    CHECK(print_of(RIGCACTUS_MOST_LIST_BYTES, RIGCACTUS_MOST_PRINTED_BYTES) == (uint64_t)4735 << 8);
    CHECK(lent_record[BESIDE] == '<' && lent_record[BESIDE + 4734] == '>' && lent_record[BESIDE + 4735] == FILL && lent_record[BESIDE - 1] == FILL);
    CHECK(print_of(RIGCACTUS_MOST_LIST_BYTES, 4734) == RIGCACTUS_NO_ROOM && is_record(""));
    CHECK(is_not_writable(RIGCACTUS_MOST_LIST_BYTES + RIGCACTUS_STRETCH_BYTES));
    CHECK(memcmp(to_print, kept, sizeof kept) == 0);
}

/* What is printed is accepted, and lists as what was printed, whatever offset is agreed. */
static void check_printed_again(void)
{
    static const int64_t offsets[] = {-840, 0, 1, 840};
    static uint8_t listed[RIGCACTUS_MOST_LIST_BYTES];
    uint64_t count = list_of(STAY, 120, RIGCACTUS_MOST_LIST_BYTES);
    memcpy(to_print + 1, lent + BESIDE, 64);
    size_t length = rigcactus_length(print_of(64, RIGCACTUS_MOST_PRINTED_BYTES));
    CHECK(count == 0x200 && length == 323);
    for (size_t i = 0; i < sizeof offsets / sizeof offsets[0]; i++) {
        CHECK(rigcactus_check(lent_record + BESIDE, length, offsets[i]) == RIGCACTUS_ACCEPTED);
        CHECK(rigcactus_list(lent_record + BESIDE, length, offsets[i], listed, sizeof listed) == count);
        CHECK(memcmp(listed, to_print + 1, 64) == 0);
    }
}

/* An answer, and nothing else in it. */
static int is_compared(const char *first, const char *second, int comparison)
{
    return comparison_of(first, second, 0) == (uint64_t)comparison << 16 && comparison_of(second, first, 0) == (uint64_t)comparison << 16;
}

static int is_refused_pair(const char *first, const char *second, int64_t offset, int record, int refusal)
{
    uint64_t answer = comparison_of(first, second, offset);
    return rigcactus_refused_record(answer) == record && rigcactus_refusal(answer) == refusal && answer >> 16 == 0;
}

#define MONEY(value) "<t xsi:type=\"MO\" value=\"" value "\" currency=\"EUR\"/>"

static void check_compare(void)
{
    CHECK(is_compared(MONEY("12.5"), MONEY("12.50"), RIGCACTUS_YES));
    CHECK(is_compared(MONEY("12.5"), MONEY("12.51"), RIGCACTUS_NO));
    CHECK(is_compared(MONEY("12.5"), "<t xsi:type=\"MO\" nullFlavor=\"NI\"/>", RIGCACTUS_UNKNOWN));
    CHECK(is_compared(TIME("20240501"), TIME("2024050112"), RIGCACTUS_UNKNOWN));
    CHECK(is_compared(TIME("20240501"), TIME("2024050212"), RIGCACTUS_NO));
    CHECK(is_compared(TIME("2024050102+02"), TIME("2024050100"), RIGCACTUS_YES));
    CHECK(comparison_of(TIME("2024050102+02"), TIME("2024050100"), 60) == (uint64_t)RIGCACTUS_NO << 16);
    CHECK(is_compared(BOUNDS("t", "20240401", "20240430"), BOUNDS("t", "20240401", "20240430"), RIGCACTUS_YES));
    CHECK(is_compared(BOUNDS("t", "20240401", "20240430"), "<t xsi:type=\"IVL_TS\" lowClosed=\"true\" highClosed=\"false\">"
                      "<low value=\"20240401\"/><high value=\"20240501\"/></t>", RIGCACTUS_NO)); /* though both list the same */
    CHECK(is_refused_pair(MONEY("12.5"), TIME("2024"), 0, 2, RIGCACTUS_TYPE));
    CHECK(is_refused_pair(STAY, STAY, 0, 2, RIGCACTUS_TYPE));
    CHECK(is_refused_pair(MONEY("12,5"), TIME("?"), 0, 1, RIGCACTUS_VALUE));
    CHECK(is_refused_pair(MONEY("12.5"), TIME("?"), 0, 2, RIGCACTUS_VALUE));
    CHECK(is_refused_pair(MONEY("12.5"), MONEY("12.5"), 841, 1, RIGCACTUS_OFFSET));
    CHECK(is_refused_pair(MONEY("12.5"), MONEY("\xFF"), 841, 1, RIGCACTUS_OFFSET));
}

/* No bytes are no element. The same memory, twice; both sides of the limit. */
static void check_compare_limits(void)
{
    static const uint8_t record[] = MONEY("12.5");
    static uint8_t padded[RIGCACTUS_MOST_BYTES + 1];
    size_t length = sizeof record - 1;
    memset(padded, ' ', sizeof padded);
    memcpy(padded, record, length);
    CHECK(rigcactus_compare(NULL, 0, record, length, 0) == (0x100 | RIGCACTUS_MARKUP));
    CHECK(rigcactus_compare(record, length, NULL, 0, 0) == (0x200 | RIGCACTUS_MARKUP));
    CHECK(rigcactus_compare(NULL, 0, NULL, 0, -841) == (0x100 | RIGCACTUS_OFFSET));
    CHECK(rigcactus_compare(record, length, record, length, -840) == 0x10000);
    CHECK(rigcactus_compare(padded, 16384, padded, length, 840) == 0x10000);
    CHECK(rigcactus_compare(padded, 16385, padded, length, 0) == (0x100 | RIGCACTUS_TOO_LONG));
    CHECK(rigcactus_compare(padded, length, padded, 16385, 0) == (0x200 | RIGCACTUS_TOO_LONG));
}

/* The numbers of a currency: its letters, the first in the lowest byte. */
enum { EUR = 0x525545, USD = 0x445355, GBP = 0x504247 };

static int is_total(const uint64_t *report, size_t index, const char *currency, int64_t total)
{
    struct rigcactus_total row = rigcactus_total_at(report, index);
    return strcmp(row.currency, currency) == 0 && row.total == total;
}

/* The limits, and rows of a report, with totals at the ends of what a number can be. */
static void check_total_helpers(void)
{
    static const uint64_t report[] = {7, 8, 9, EUR, 125000, USD, UINT64_MAX, GBP, UINT64_C(1) << 63, EUR, (UINT64_C(1) << 63) - 1, USD, 0, GBP,
                                      UINT64_C(9446744073709551616), EUR, UINT64_C(9000000000000000000)};
    CHECK(is_total(report, 0, "EUR", 125000) && is_total(report, 1, "USD", -1));
    CHECK(is_total(report, 2, "GBP", INT64_MIN) && is_total(report, 3, "EUR", INT64_MAX) && is_total(report, 4, "USD", 0));
    CHECK(is_total(report, 5, "GBP", -RIGCACTUS_MOST_TOTAL) && is_total(report, 6, "EUR", RIGCACTUS_MOST_TOTAL));
    CHECK(sizeof rigcactus_total_at(report, 0).currency == 4);
    CHECK(RIGCACTUS_TABLE_NUMBERS == 103 && RIGCACTUS_REPORT_NUMBERS == 35 && RIGCACTUS_MOST_CURRENCIES == 16 && RIGCACTUS_DESKS == 2);
    CHECK(RIGCACTUS_TABLE_NUMBERS == 1 + RIGCACTUS_DESKS * (3 + 3 * RIGCACTUS_MOST_CURRENCIES));
    CHECK(RIGCACTUS_REPORT_NUMBERS == 3 + 2 * RIGCACTUS_MOST_CURRENCIES);
    CHECK(RIGCACTUS_MOST_COUNTED == 1000000 && RIGCACTUS_PER_UNIT == 10000 && sizeof RIGCACTUS_PER_UNIT == 8);
    CHECK(RIGCACTUS_MOST_TOTAL == INT64_C(9000000000000000000) && sizeof RIGCACTUS_MOST_TOTAL == 8);
}

/* A table and a report, each with numbers before it and after it, and what every number is before a table is opened or reported. */
static const uint64_t FILLED = UINT64_C(0x5C5C5C5C5C5C5C5C);
static uint64_t lent_table[1 + RIGCACTUS_TABLE_NUMBERS + 2];
static uint64_t lent_report[1 + RIGCACTUS_REPORT_NUMBERS + 2];
static uint64_t *const table = lent_table + 1;
static uint64_t *const report = lent_report + 1;

static void fill(uint64_t *numbers, size_t count)
{
    for (size_t i = 0; i < count; i++)
        numbers[i] = FILLED;
}

/* Whether lent numbers are as filled, but for so many after the first, which begin so and go on as 0. */
static int begin_with(const uint64_t *numbers, size_t count, size_t written, const uint64_t *due, size_t due_count)
{
    for (size_t i = 0; i < count; i++) {
        uint64_t inside = i >= 1 && i - 1 < due_count ? due[i - 1] : 0;
        if (numbers[i] != (i >= 1 && i - 1 < written ? inside : FILLED))
            return 0;
    }
    return 1;
}

/* Opens a table. */
static void open_table(void)
{
    fill(lent_table, sizeof lent_table / sizeof lent_table[0]);
    CHECK(rigcactus_totals_open(table) == 0);
}

/* Whether the table begins with these numbers, has 0 after them, and nothing beside it is changed. */
static int is_table(const uint64_t *due, size_t due_count)
{
    return begin_with(lent_table, sizeof lent_table / sizeof lent_table[0], RIGCACTUS_TABLE_NUMBERS, due, due_count);
}

/* Whether a desk's report gives this answer, and writes these numbers alone. The table stays. */
static int is_reported(uint64_t desk, uint64_t answer, const uint64_t *due, size_t due_count)
{
    uint64_t kept[sizeof lent_table / sizeof lent_table[0]];
    memcpy(kept, lent_table, sizeof kept);
    fill(lent_report, sizeof lent_report / sizeof lent_report[0]);
    return rigcactus_totals_report(table, desk, report) == answer && memcmp(kept, lent_table, sizeof kept) == 0
        && begin_with(lent_report, sizeof lent_report / sizeof lent_report[0], due_count, due, due_count);
}

#define NUMBERS(array) (array), sizeof(array) / sizeof(array)[0]
#define SUM(value, currency) "<t xsi:type=\"MO\" value=\"" value "\" currency=\"" currency "\"/>"
#define NO_SUM "<t xsi:type=\"MO\" nullFlavor=\"NASK\"/>"

static uint64_t add(uint64_t desk, const char *record)
{
    return rigcactus_totals_add(table, desk, (const uint8_t *)record, strlen(record), 0);
}

/* Whether adding a record gives this answer and changes one number of the table alone, which goes up by one. */
static int is_counted(uint64_t desk, const char *record, size_t record_len, int64_t offset, uint64_t answer, size_t number)
{
    uint64_t due[sizeof lent_table / sizeof lent_table[0]];
    memcpy(due, lent_table, sizeof due);
    due[1 + number]++;
    return rigcactus_totals_add(table, desk, (const uint8_t *)record, record_len, offset) == answer
        && memcmp(due, lent_table, sizeof due) == 0;
}

/* An empty table; a day of desk 1, step by step; 0 and -0, which make a row and change none. Desk 2 has nothing all the while. */
static void check_totals(void)
{
    static const uint64_t none[] = {0, 0, 0}, one[] = {1, 1, 0, 0, 0, 0, 0, 1, EUR, 125000}, one_report[] = {1, 0, 0, EUR, 125000};
    static const uint64_t two[] = {2, 2, 0, 0, 0, 0, 0, 1, EUR, 125000, 1, USD, 30000}, two_report[] = {2, 0, 0, EUR, 125000, USD, 30000};
    static const uint64_t day[] = {2, 3, 1, 1, 0, 0, 0, 1, EUR, 0, 1, USD, 30000}, day_report[] = {3, 1, 1, EUR, 0, USD, 30000};
    static const uint64_t more[] = {3, 6, 1, 1, 0, 0, 0, 1, EUR, (uint64_t)-1, 1, USD, 30000, 1, GBP, 0};
    static const uint64_t more_report[] = {6, 1, 1, EUR, (uint64_t)-1, USD, 30000, GBP, 0};
    open_table();
    CHECK(is_table(none, 0) && is_reported(1, 0, NUMBERS(none)) && is_reported(2, 0, NUMBERS(none)));
    CHECK(add(1, SUM("12.50", "EUR")) == 0x100 && is_table(NUMBERS(one)) && is_reported(1, 0x100, NUMBERS(one_report)));
    CHECK(add(1, SUM("3", "USD")) == 0x100 && is_table(NUMBERS(two)) && is_reported(1, 0x200, NUMBERS(two_report)));
    CHECK(is_counted(1, NO_SUM, strlen(NO_SUM), 0, 0x200, 2));
    CHECK(is_counted(1, SUM("12,50", "EUR"), strlen(SUM("12,50", "EUR")), 0, RIGCACTUS_VALUE, 3));
    CHECK(add(1, SUM("-12.5", "EUR")) == 0x100 && is_table(NUMBERS(day)) && is_reported(1, 0x200, NUMBERS(day_report)));
    CHECK(rigcactus_count(rigcactus_totals_report(table, 1, report)) == 2 && is_total(report, 0, "EUR", 0) && is_total(report, 1, "USD", 30000));
    CHECK(add(1, SUM("-0.0001", "EUR")) == 0x100 && add(1, SUM("-0", "GBP")) == 0x100 && add(1, SUM("0.0", "EUR")) == 0x100);
    CHECK(is_table(NUMBERS(more)) && is_reported(1, 0x300, NUMBERS(more_report)) && is_total(report, 0, "EUR", -1));
    CHECK(is_reported(2, 0, NUMBERS(none)));
    open_table();
    CHECK(is_table(none, 0));
}

/* Two desks: the same currency for both, rows in the order in which they came, and what a start of each does to the table. */
static void check_desks(void)
{
    static const uint64_t both[] = {4, 2, 1, 0, 2, 0, 1, 1, EUR, 125000, 2, EUR, 72500, 2, USD, 10000, 1, USD, 30000};
    static const uint64_t one[] = {2, 1, 0, EUR, 125000, USD, 30000}, two[] = {2, 0, 1, EUR, 72500, USD, 10000}, none[] = {0, 0, 0};
    static const uint64_t without_one[] = {2, 0, 0, 0, 2, 0, 1, 2, EUR, 72500, 2, USD, 10000, 2, USD, 10000, 1, USD, 30000};
    static const uint64_t again[] = {3, 1, 0, 0, 2, 0, 1, 2, EUR, 72500, 2, USD, 10000, 1, GBP, 10000, 1, USD, 30000};
    static const uint64_t without_two[] = {1, 1, 0, 0, 0, 0, 0, 1, GBP, 10000, 2, USD, 10000, 1, GBP, 10000, 1, USD, 30000};
    static const uint64_t one_again[] = {1, 0, 0, GBP, 10000};
    open_table();
    CHECK(add(1, SUM("12.50", "EUR")) == 0x100 && add(2, SUM("7.25", "EUR")) == 0x100 && add(2, SUM("1", "USD")) == 0x100);
    CHECK(add(1, NO_SUM) == 0x200 && add(2, SUM("1", "usd")) == RIGCACTUS_VALUE && add(1, SUM("3", "USD")) == 0x100);
    CHECK(is_table(NUMBERS(both)) && is_reported(1, 0x200, NUMBERS(one)) && is_reported(2, 0x200, NUMBERS(two)));
    CHECK(rigcactus_totals_start(table, 1) == 0 && is_table(NUMBERS(without_one)));
    CHECK(is_reported(1, 0, NUMBERS(none)) && is_reported(2, 0x200, NUMBERS(two)));
    CHECK(add(1, SUM("1", "GBP")) == 0x100 && is_table(NUMBERS(again)) && is_reported(2, 0x200, NUMBERS(two)));
    CHECK(rigcactus_totals_start(table, 2) == 0 && is_table(NUMBERS(without_two)));
    CHECK(is_reported(2, 0, NUMBERS(none)) && is_reported(1, 0x100, NUMBERS(one_again)));
}

/* Numbers that are no desk: nothing changes, with a damaged table, a full day and a bad offset too. */
static void check_no_desk(void)
{
    static const uint64_t desks[] = {0, 3, 257, (UINT64_C(1) << 32) + 1, UINT64_C(1) << 63, UINT64_MAX};
    static const uint64_t good[] = {1, 1, 0, 0, 0, 0, 0, 1, EUR, 0}, full[] = {0, 1000000, 0, 0, 0, 0, 1000000};
    static const uint64_t damaged[] = {1, 1, 0, 0, 0, 0, 0, 3, EUR, 0};
    static const struct {
        const uint64_t *numbers;
        size_t count;
    } tables[] = {{NUMBERS(good)}, {NUMBERS(full)}, {NUMBERS(damaged)}};
    for (size_t i = 0; i < sizeof desks / sizeof desks[0]; i++)
        for (size_t j = 0; j < sizeof tables / sizeof tables[0]; j++) {
            open_table();
            memcpy(table, tables[j].numbers, 8 * tables[j].count);
            CHECK(add(desks[i], SUM("1", "EUR")) == RIGCACTUS_NO_DESK && add(desks[i], "") == RIGCACTUS_NO_DESK);
            CHECK(rigcactus_totals_add(table, desks[i], NULL, 0, 841) == RIGCACTUS_NO_DESK);
            CHECK(rigcactus_totals_start(table, desks[i]) == RIGCACTUS_NO_DESK);
            CHECK(is_reported(desks[i], RIGCACTUS_NO_DESK, NULL, 0) && is_table(tables[j].numbers, tables[j].count));
        }
}

/* One record for each number that checking can give, and records of other types: each is counted, and changes nothing else. */
static void check_totals_refusals(void)
{
    static const struct {
        const char *record;
        int refusal;
    } refused[] = {
        {SUM("1", "EUR\xFF"), RIGCACTUS_NOT_UTF8},
        {SUM("1", "EUR") SUM("1", "EUR"), RIGCACTUS_MARKUP},
        {"<t value=\"1\" currency=\"EUR\"/>", RIGCACTUS_TYPE},
        {"<t xsi:type=\"II\" root=\"1.2\"/>", RIGCACTUS_TYPE},
        {"<t xsi:type=\"II\" nullFlavor=\"NI\"/>", RIGCACTUS_TYPE},
        {"<t xsi:type=\"TS\" value=\"1,2\" currency=\"EUR\"/>", RIGCACTUS_TYPE},
        {TIME("20240230"), RIGCACTUS_TYPE},
        {TIME("2024050124"), RIGCACTUS_TYPE},
        {TIME("2024050112+1401"), RIGCACTUS_TYPE},
        {BOUNDS("t", "20240230", "2024050112+1401"), RIGCACTUS_TYPE},
        {SUM("20240230", "EUR") SUM("1", "EUR"), RIGCACTUS_MARKUP},
        {STAY, RIGCACTUS_TYPE},
        {"<t xsi:type=\"MO\" value=\"1\" currency=\"EUR\" root=\"1.2\"/>", RIGCACTUS_SHAPE},
        {SUM("1.00000", "EUR"), RIGCACTUS_VALUE},
        {SUM("1", "eur"), RIGCACTUS_VALUE},
        {"<t xsi:type=\"MO\" nullFlavor=\"none\"/>", RIGCACTUS_VALUE},
        {"<t xsi:type=\"MO\" value=\"1\"/>", RIGCACTUS_RULE},
        {"<t xsi:type=\"MO\" value=\"1\" currency=\"EUR\" nullFlavor=\"NI\"/>", RIGCACTUS_RULE},
    };
    static char padded[RIGCACTUS_MOST_BYTES + 1];
    open_table();
    CHECK(add(1, SUM("1", "EUR")) == 0x100);
    for (size_t i = 0; i < sizeof refused / sizeof refused[0]; i++)
        CHECK(is_counted(1, refused[i].record, strlen(refused[i].record), 0, (uint64_t)refused[i].refusal, 3)
              && is_counted(2, refused[i].record, strlen(refused[i].record), 0, (uint64_t)refused[i].refusal, 6));
    CHECK(is_counted(1, NULL, 0, 0, RIGCACTUS_MARKUP, 3));
    CHECK(is_counted(1, NO_SUM, strlen(NO_SUM), 841, RIGCACTUS_OFFSET, 3) && is_counted(1, NULL, 0, INT64_MIN, RIGCACTUS_OFFSET, 3));
    memset(padded, ' ', sizeof padded);
    memcpy(padded, NO_SUM, strlen(NO_SUM));
    CHECK(is_counted(1, padded, 16384, -840, 0x200, 2));
    CHECK(is_counted(1, padded, 16385, 840, RIGCACTUS_TOO_LONG, 3) && is_counted(1, padded, 16385, -841, RIGCACTUS_OFFSET, 3));
    CHECK(table[0] == 1 && table[1] == 1 && table[2] == 1 && table[3] == 23 && table[9] == 10000);
}

/* Sixteen rows of each desk, in the order in which they came, and a currency more; what stands past the rows held is left as it is. */
static void check_totals_rows(void)
{
    char record[] = SUM("1", "AAA");
    char *letter = strstr(record, "AAA");
    open_table();
    for (int i = 0; i < 32; i++) {
        fill(table + 7 + 3 * table[0], RIGCACTUS_TABLE_NUMBERS - 7 - 3 * table[0]);
        *letter = (char)('P' - i / 2);
        CHECK(add(1 + i % 2, record) == 0x100 && table[0] == (uint64_t)i + 1);
        for (size_t j = 7 + 3 * table[0]; j < RIGCACTUS_TABLE_NUMBERS; j++)
            CHECK(table[j] == FILLED);
    }
    *letter = 'Q';
    CHECK(is_counted(1, record, strlen(record), 0, RIGCACTUS_NO_ROW, 3) && is_counted(2, record, strlen(record), 0, RIGCACTUS_NO_ROW, 6));
    *letter = 'A';
    CHECK(add(1, record) == 0x100 && rigcactus_totals_report(table, 1, report) == 0x1000);
    CHECK(report[0] == 17 && report[1] == 0 && report[2] == 1 && is_total(report, 0, "PAA", 10000) && is_total(report, 15, "AAA", 20000));
    CHECK(rigcactus_totals_report(table, 2, report) == 0x1000 && is_total(report, 0, "PAA", 10000) && is_total(report, 15, "AAA", 10000));
    lent_table[1 + RIGCACTUS_TABLE_NUMBERS] = 1; /* as a row after the last would be */
    lent_table[1 + RIGCACTUS_TABLE_NUMBERS + 1] = EUR;
    table[0] = 33;
    CHECK(add(1, record) == RIGCACTUS_DAMAGED && is_reported(1, RIGCACTUS_DAMAGED, NULL, 0) && rigcactus_totals_start(table, 2) == RIGCACTUS_DAMAGED);
    table[0] = 32;
    CHECK(rigcactus_totals_start(table, 1) == 0 && table[0] == 16 && rigcactus_totals_report(table, 2, report) == 0x1000);
    *letter = 'Q';
    CHECK(add(1, record) == 0x100 && is_counted(2, record, strlen(record), 0, RIGCACTUS_NO_ROW, 6));
}

/* Both ends of a total, and of a day: those of one desk are not the other's. */
static void check_totals_limits(void)
{
    static const uint64_t full[] = {1, 999998, 1, 1, 0, 0, 0, 1, EUR, 0}, full_report[] = {999998, 1, 1, EUR, 0};
    open_table();
    CHECK(add(1, SUM("999999999999.9999", "EUR")) == 0x100 && table[9] == UINT64_C(9999999999999999));
    table[9] = (uint64_t)RIGCACTUS_MOST_TOTAL - 1;
    CHECK(add(1, SUM("0.0001", "EUR")) == 0x100 && is_counted(1, SUM("0.0001", "EUR"), strlen(SUM("0.0001", "EUR")), 0, RIGCACTUS_TOTAL, 3));
    CHECK(rigcactus_totals_report(table, 1, report) == 0x100 && is_total(report, 0, "EUR", RIGCACTUS_MOST_TOTAL));
    CHECK(add(1, SUM("0", "EUR")) == 0x100 && add(1, SUM("-999999999999.9999", "EUR")) == 0x100 && table[9] == UINT64_C(8990000000000000001));
    table[9] = 1 - (uint64_t)RIGCACTUS_MOST_TOTAL;
    CHECK(add(1, SUM("-0.0001", "EUR")) == 0x100 && is_counted(1, SUM("-0.0001", "EUR"), strlen(SUM("-0.0001", "EUR")), 0, RIGCACTUS_TOTAL, 3));
    CHECK(rigcactus_totals_report(table, 1, report) == 0x100 && is_total(report, 0, "EUR", -RIGCACTUS_MOST_TOTAL));
    CHECK(add(2, SUM("-0.0001", "EUR")) == 0x100 && rigcactus_totals_report(table, 2, report) == 0x100 && is_total(report, 0, "EUR", -1));

    open_table();
    memcpy(table, full, sizeof full);
    table[1] = 999997;
    CHECK(add(1, SUM("0", "EUR")) == 0x100 && is_table(NUMBERS(full)));
    CHECK(add(1, SUM("1", "EUR")) == RIGCACTUS_DAY_FULL && add(1, NO_SUM) == RIGCACTUS_DAY_FULL && add(1, "") == RIGCACTUS_DAY_FULL);
    CHECK(rigcactus_totals_add(table, 1, NULL, 0, 841) == RIGCACTUS_DAY_FULL && is_table(NUMBERS(full)));
    CHECK(is_reported(1, 0x100, NUMBERS(full_report)) && is_counted(2, NO_SUM, strlen(NO_SUM), 0, 0x200, 5));
    CHECK(rigcactus_totals_start(table, 1) == 0 && add(1, NO_SUM) == 0x200);
}

/*
 * What adding is refused for, with a table of two rows for each desk, EUR and USD, and counts 1, 1, 1, of which one number is changed; -1 if
 * reporting or starting does not agree, for either desk, or the table changes where it must not or stays where it must change.
 */
static int with(size_t index, uint64_t number)
{
    static const uint64_t good[] = {4, 1, 1, 1, 1, 1, 1, 1, EUR, 0, 2, EUR, 0, 1, USD, 0, 2, USD, 0};
    uint64_t kept[sizeof lent_table / sizeof lent_table[0]];
    open_table();
    memcpy(table, good, sizeof good);
    table[index] = number;
    memcpy(kept, lent_table, sizeof kept);
    int damaged = is_reported(1, RIGCACTUS_DAMAGED, NULL, 0);
    int refusal = rigcactus_refusal(rigcactus_totals_add(table, index < 4 ? 1 : 2, NULL, 0, 841));
    int stays = memcmp(kept, lent_table, sizeof kept) == 0;
    int agrees = damaged == (refusal == RIGCACTUS_DAMAGED) && stays == (damaged || refusal == RIGCACTUS_DAY_FULL);
    memcpy(lent_table, kept, sizeof kept);
    agrees = agrees && damaged == is_reported(2, RIGCACTUS_DAMAGED, NULL, 0);
    for (uint64_t desk = 1; desk <= 2; desk++) {
        memcpy(lent_table, kept, sizeof kept);
        uint64_t started = rigcactus_totals_start(table, desk);
        agrees = agrees && started == (damaged ? (uint64_t)RIGCACTUS_DAMAGED : 0) && (memcmp(kept, lent_table, sizeof kept) == 0) == damaged;
    }
    return agrees ? refusal : -1;
}

/*
 * Clause by clause, with what is just not damaged beside what is, in the part of each desk. The agreed offset is out of range, for which 21 does
 * not wait.
 */
static void check_damaged(void)
{
    enum { GOOD = RIGCACTUS_OFFSET, BAD = RIGCACTUS_DAMAGED };
    CHECK(with(0, 4) == GOOD && with(0, 0) == GOOD && with(0, 3) == GOOD && with(0, 5) == BAD && with(0, 32) == BAD && with(0, 33) == BAD);
    CHECK(with(0, UINT64_MAX) == BAD && with(0, (UINT64_C(1) << 32) + 1) == BAD && with(0, (UINT64_C(1) << 63) + 1) == BAD);
    for (size_t row = 7; row <= 10; row += 3) {
        CHECK(with(row, 0) == BAD && with(row, 3) == BAD && with(row, 257) == BAD && with(row, UINT64_C(1) << 63) == BAD && with(row, UINT64_MAX) == BAD);
        CHECK(with(row + 1, GBP) == GOOD && with(row + 1, 0x5A4141) == GOOD && with(row + 1, 0x5B4141) == BAD && with(row + 1, 0x404141) == BAD);
        CHECK(with(row + 1, 0x415B41) == BAD && with(row + 1, 0x525565) == BAD && with(row + 1, 0x5545) == BAD && with(row + 1, 0) == BAD);
        CHECK(with(row + 1, 0x455552) == GOOD && with(row + 1, EUR + (UINT64_C(1) << 24)) == BAD && with(row + 1, EUR + (UINT64_C(1) << 63)) == BAD);
        CHECK(with(row + 1, USD) == BAD && with(row + 7, EUR) == BAD && with(row + 7, GBP) == GOOD);
        CHECK(with(row + 2, (uint64_t)RIGCACTUS_MOST_TOTAL) == GOOD && with(row + 2, (uint64_t)RIGCACTUS_MOST_TOTAL + 1) == BAD);
        CHECK(with(row + 2, 0 - (uint64_t)RIGCACTUS_MOST_TOTAL) == GOOD && with(row + 2, 0 - (uint64_t)RIGCACTUS_MOST_TOTAL - 1) == BAD);
        CHECK(with(row + 2, UINT64_C(1) << 63) == BAD && with(row + 2, INT64_MAX) == BAD && with(row + 2, UINT64_MAX) == GOOD);
    }
    CHECK(with(7, 2) == BAD && with(10, 1) == BAD); /* EUR twice at one desk */
    CHECK(with(19, 3) == GOOD && with(20, EUR) == GOOD && with(20, 1) == GOOD && with(21, UINT64_C(1) << 63) == GOOD);
    for (size_t count = 1; count <= 6; count++) {
        CHECK(with(count, 999997) == GOOD && with(count, 999998) == RIGCACTUS_DAY_FULL && with(count, 999999) == BAD);
        CHECK(with(count, UINT64_MAX) == BAD && with(count, UINT64_MAX - 1) == BAD && with(count, UINT64_C(1) << 63) == BAD);
        CHECK(with(count, UINT64_C(1) << 32) == BAD);
    }
}

int main(void)
{
    check_refusals();
    check_helpers();
    check_cut();
    check_empty();
    check_limit();
    check_tick();
    check_dates();
    check_clocks();
    check_forms();
    check_tick_units();
    check_tick_limits();
    check_check();
    check_check_limits();
    check_list_helpers();
    check_list();
    check_list_refusals();
    check_list_units();
    check_times_of_records();
    check_print();
    check_improper();
    check_print_years();
    check_print_limits();
    check_printed_again();
    check_compare();
    check_compare_limits();
    check_total_helpers();
    check_totals();
    check_desks();
    check_no_desk();
    check_totals_refusals();
    check_totals_rows();
    check_totals_limits();
    check_damaged();
    return failures == 0 ? 0 : 1;
}
