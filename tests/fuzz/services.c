/*
 * Fuzzes the services through the C interface. An input chooses a service and its arguments; the answer is held to what the header
 * says of it, to the other services, to the same call with other arguments, and to the second implementations of second.rs. All that is
 * lent stands beside a page that nobody may touch, so a read or a write past its end stops the run, though the services are compiled
 * without any check of their own. tests/fuzz/run says how this is built and run.
 *
 * An input is:
 *
 *     byte 0           the service: 0 cut, 1 tick, 2 check, 3 list, 4 compare, 5 print, 6 daily totals, by the remainder of 7
 *     bytes 1 and 2    the agreed offset, signed, lowest first; for print, the one that the record is read back under, if it may be
 *     bytes 3 and 4    the room of a cut, or the length of the lent list or the lent record
 *     byte 5           what the lent list, record, report or tick is filled with; and, if its lowest bit is set, offset and room are
 *                      moved to the top of their 64 bits
 *     the rest         the text, the record or the list to print; for compare two records, parted by a byte FF, or one that is compared
 *                      with itself; for totals the bytes of a table, with 0 where they are too few, and what is done to it one after
 *                      another, parted by bytes FF: a byte whose two lowest bits are the desk, whose third starts its day, and whose
 *                      fourth adds 2^32 to the desk, so that a digit from 0 to 3 adds, and one from 4 to 7 starts; and the record
 */
#define _DEFAULT_SOURCE
#include "rigcactus.h"

#include <stdio.h>
#include <stdlib.h>
#include <string.h>
#include <sys/mman.h>

/* The second implementations. */
uint64_t second_cut(const uint8_t *text, size_t text_len, uint64_t room);
uint64_t second_tick(const uint8_t *text, size_t text_len, int64_t offset, int64_t *tick);
uint64_t second_check(const uint8_t *record, size_t record_len, int64_t offset);
uint64_t second_list(const uint8_t *record, size_t record_len, int64_t offset, uint8_t *list, size_t list_len);
uint64_t second_compare(const uint8_t *first, size_t first_len, const uint8_t *second, size_t second_len, int64_t offset);
uint64_t second_print(const uint8_t *list, size_t list_len, uint8_t *record, size_t record_len);
uint64_t second_totals_start(uint64_t *table, uint64_t desk);
uint64_t second_totals_add(uint64_t *table, uint64_t desk, const uint8_t *record, size_t record_len, int64_t offset);
uint64_t second_totals_report(const uint64_t *table, uint64_t desk, uint64_t *report);

enum { PAGE = 4096, ROOM = 32768, HEAD = 6, MOST_LIST = 2047, MOST_RECORD = 8191, SPACES = 2, MOST_STEPS = 64 };
enum { TABLE = RIGCACTUS_TABLE_NUMBERS, REPORT = RIGCACTUS_REPORT_NUMBERS, TABLE_BYTES = 8 * TABLE };

/* The first and the last tick that a timestamp can have, and the last of those in years 0001 to 9999, of which the first is 0. */
static const int64_t FIRST_TICK = -504000000, LAST_TICK = 3155379479999999, LAST_IN_YEARS = 3155378975999999;

/* The last tick of a bound: the start of year 10000, as far west as can be, where a closed high to the end of year 9999 is open. */
static const int64_t LAST_BOUND = 3155379480000000;

/* Ends the run, so that the fuzzer keeps the input. */
#define CLAIM(holds) \
    do { \
        if (!(holds)) { \
            fprintf(stderr, "services.c:%d: %s\n", __LINE__, #holds); \
            abort(); \
        } \
    } while (0)

/*
 * One byte for each kind of answer: a fuzzer that knows this section counts the first of each kind as something new, beside what the
 * instrumented code shows.
 */
static uint8_t seen[7][26][64] __attribute__((section("__libfuzzer_extra_counters"), used));

static void see(int service, uint64_t answer, uint64_t result)
{
    seen[service][rigcactus_refusal(answer)][result & 63] = 1;
}

/* ---- Lent memory -------------------------------------------------------------------------------------------------- */

struct lent {
    uint8_t *bytes;
    size_t length;
};

/* Room between two pages that nobody may touch. */
struct fenced {
    uint8_t *start;
};

static struct fenced new_fenced(void)
{
    uint8_t *base = mmap(NULL, ROOM + 2 * PAGE, PROT_NONE, MAP_PRIVATE | MAP_ANONYMOUS, -1, 0);
    CLAIM(base != MAP_FAILED && mprotect(base + PAGE, ROOM, PROT_READ | PROT_WRITE) == 0);
    return (struct fenced){base + PAGE};
}

/* Copies bytes to the last place before the fence, or to the first after it. */
static struct lent place(struct fenced fenced, const uint8_t *bytes, size_t length, int last)
{
    uint8_t *at = last ? fenced.start + ROOM - length : fenced.start;
    if (length > 0)
        memcpy(at, bytes, length);
    return (struct lent){at, length};
}

static struct fenced one, two, list_room, tick_room, record_room, table_room, report_room;

static void set_up(void)
{
    if (one.start)
        return;
    one = new_fenced();
    two = new_fenced();
    list_room = new_fenced();
    tick_room = new_fenced();
    record_room = new_fenced();
    table_room = new_fenced();
    report_room = new_fenced();
}

/* Whether bytes are all of one value. */
static int is_all(const uint8_t *bytes, size_t length, uint8_t value)
{
    for (size_t i = 0; i < length; i++)
        if (bytes[i] != value)
            return 0;
    return 1;
}

/* ---- What an answer is -------------------------------------------------------------------------------------------- */

static int is_offset(int64_t offset)
{
    return -RIGCACTUS_MOST_OFFSET <= offset && offset <= RIGCACTUS_MOST_OFFSET;
}

/* Another agreed offset that may be. */
static int64_t other_offset(int64_t offset)
{
    return offset == 60 ? -300 : 60;
}

static uint64_t check(struct lent record, int64_t offset)
{
    return rigcactus_check(record.bytes, record.length, offset);
}

/* The refusals from the one that comes first, where several apply, to the last. */
static const int precedence[] = {
    RIGCACTUS_NO_DESK, RIGCACTUS_DAMAGED, RIGCACTUS_DAY_FULL, RIGCACTUS_OFFSET, RIGCACTUS_TOO_LONG, RIGCACTUS_NOT_UTF8, RIGCACTUS_MARKUP,
    RIGCACTUS_TYPE, RIGCACTUS_SHAPE, RIGCACTUS_VALUE, RIGCACTUS_DATE, RIGCACTUS_CLOCK, RIGCACTUS_ZONE, RIGCACTUS_RULE,
    RIGCACTUS_UNKNOWN_BOUND, RIGCACTUS_TOO_MANY, RIGCACTUS_NOT_WRITABLE, RIGCACTUS_NO_ROOM, RIGCACTUS_NO_ROW, RIGCACTUS_TOTAL,
};

/* Where a refusal stands in that list. */
static size_t rank_of(int refusal)
{
    size_t rank = 0, count = sizeof precedence / sizeof precedence[0];
    while (rank < count && precedence[rank] != refusal)
        rank++;
    CLAIM(rank < count);
    return rank;
}

static int comes_before(int refusal, int other)
{
    return rank_of(refusal) < rank_of(other);
}

/* Whether checking can give a number. */
static int is_of_check(int refusal)
{
    return refusal == RIGCACTUS_ACCEPTED || (!comes_before(refusal, RIGCACTUS_OFFSET) && !comes_before(RIGCACTUS_RULE, refusal));
}

/* OFFSET, TOO LONG and NOT UTF-8 are given exactly where they apply: the first of them, and before anything else. */
static void claim_first_refusals(struct lent record, int64_t offset, int refusal)
{
    int is_text = rigcactus_refusal(rigcactus_cut(record.bytes, record.length, 0)) != RIGCACTUS_NOT_UTF8;

    if (!is_offset(offset))
        CLAIM(refusal == RIGCACTUS_OFFSET);
    else if (record.length > RIGCACTUS_MOST_BYTES)
        CLAIM(refusal == RIGCACTUS_TOO_LONG);
    else if (!is_text)
        CLAIM(refusal == RIGCACTUS_NOT_UTF8);
    else
        CLAIM(refusal == RIGCACTUS_ACCEPTED || comes_before(RIGCACTUS_NOT_UTF8, refusal));
}

/* ---- Cut ---------------------------------------------------------------------------------------------------------- */

/* Whether a beginning of a UTF-8 text is whole characters: none goes on after it. */
static int is_whole(struct lent text, size_t length)
{
    return length == text.length || (text.bytes[length] & 0xC0) != 0x80;
}

static void claim_cut(struct lent text, uint64_t room, size_t length)
{
    size_t most = room < text.length ? (size_t)room : text.length;

    CLAIM(length <= most && is_whole(text, length));
    for (size_t longer = length + 1; longer <= most; longer++)
        CLAIM(!is_whole(text, longer));
    CLAIM(rigcactus_cut(text.bytes, length, room) == (uint64_t)length << 8);
    CLAIM(rigcactus_cut(text.bytes, text.length, length) == (uint64_t)length << 8);
    CLAIM(rigcactus_cut(text.bytes, text.length, UINT64_MAX) == (uint64_t)text.length << 8);
}

static void try_cut(const uint8_t *bytes, size_t length, uint64_t room)
{
    struct lent text = place(one, bytes, length, 1);
    uint64_t answer = rigcactus_cut(text.bytes, text.length, room);
    int refusal = rigcactus_refusal(answer);

    see(0, answer, rigcactus_length(answer) == length ? 0 : rigcactus_length(answer) == room ? 1 : 2);
    CLAIM(answer == second_cut(text.bytes, text.length, room));
    CLAIM((refusal == RIGCACTUS_TOO_LONG) == (length > RIGCACTUS_MOST_BYTES));
    if (refusal == RIGCACTUS_ACCEPTED) {
        claim_cut(text, room, rigcactus_length(answer));
    } else {
        CLAIM(answer == RIGCACTUS_TOO_LONG || answer == RIGCACTUS_NOT_UTF8);
        CLAIM(rigcactus_cut(text.bytes, text.length, 0) == answer);
    }
    CLAIM(length == 0 || memcmp(text.bytes, bytes, length) == 0);
    text = place(one, bytes, length, 0);
    CLAIM(rigcactus_cut(text.bytes, text.length, room) == answer);
}

/* ---- Tick --------------------------------------------------------------------------------------------------------- */

/* The digits of a timestamp before any offset. */
static int digits_of(struct lent text)
{
    int digits = 0;
    for (size_t i = 0; i < text.length && text.bytes[i] != '+' && text.bytes[i] != '-'; i++)
        digits += text.bytes[i] != '.';
    return digits;
}

static int has_offset(struct lent text)
{
    for (size_t i = 0; i < text.length; i++)
        if (text.bytes[i] == '+' || text.bytes[i] == '-')
            return 1;
    return 0;
}

static void claim_tick(struct lent text, int64_t offset, uint64_t answer, int64_t tick)
{
    int precision = rigcactus_precision(answer);
    int64_t at_zero = 0;

    CLAIM(answer == (uint64_t)precision << 8);
    CLAIM(4 <= precision && precision <= 18 && (precision > 14 || precision % 2 == 0));
    CLAIM(precision == digits_of(text));
    CLAIM(FIRST_TICK <= tick && tick <= LAST_TICK);
    CLAIM(rigcactus_tick(text.bytes, text.length, 0, &at_zero) == answer);
    CLAIM(tick == (has_offset(text) ? at_zero : at_zero - offset * 60 * RIGCACTUS_TICKS_PER_SECOND));
}

/* The parts of a timestamp: 8 digits of a date, 6 of a clock before any point, and those after a sign. */
enum { DATE_PART = 1, CLOCK_PART = 2, ZONE_PART = 4 };

static int part_of(size_t digits_before, int is_after_point, int is_after_sign)
{
    if (is_after_sign)
        return ZONE_PART;
    if (is_after_point || digits_before >= 14)
        return 0;
    return digits_before < 8 ? DATE_PART : CLOCK_PART;
}

/* What a text is refused for if of its parts only those given keep their digits, and the others get those of the first time. */
static int refusal_of_parts(struct lent text, int64_t offset, int kept)
{
    static const char first[] = "00010101000000";
    uint8_t *changed = two.start + ROOM - text.length;
    int is_after_point = 0, is_after_sign = 0;
    size_t digits = 0;
    int64_t tick = 0;

    for (size_t i = 0; i < text.length; i++) {
        changed[i] = text.bytes[i];
        is_after_point |= text.bytes[i] == '.';
        is_after_sign |= text.bytes[i] == '+' || text.bytes[i] == '-';
        if ('0' <= text.bytes[i] && text.bytes[i] <= '9') {
            int part = part_of(digits, is_after_point, is_after_sign);
            if (part != 0 && !(part & kept))
                changed[i] = part == ZONE_PART ? '0' : (uint8_t)first[digits];
            digits++;
        }
    }
    return rigcactus_refusal(rigcactus_tick(changed, text.length, offset, &tick));
}

/* VALUE does not go by the digits. A text that is not VALUE is refused for the first of its date, clock and offset that is impossible, and each
   of these is so whatever the others are. */
static void claim_parts(struct lent text, int64_t offset, int refusal)
{
    if (!is_offset(offset) || text.length > RIGCACTUS_MOST_BYTES)
        return;
    int form = refusal_of_parts(text, offset, 0), date = refusal_of_parts(text, offset, DATE_PART);
    int clock = refusal_of_parts(text, offset, CLOCK_PART), zone = refusal_of_parts(text, offset, ZONE_PART);

    if (refusal == RIGCACTUS_VALUE) {
        CLAIM(form == RIGCACTUS_VALUE && date == RIGCACTUS_VALUE && clock == RIGCACTUS_VALUE && zone == RIGCACTUS_VALUE);
        return;
    }
    CLAIM(form == RIGCACTUS_ACCEPTED);
    CLAIM(date == RIGCACTUS_ACCEPTED || date == RIGCACTUS_DATE);
    CLAIM(clock == RIGCACTUS_ACCEPTED || clock == RIGCACTUS_CLOCK);
    CLAIM(zone == RIGCACTUS_ACCEPTED || zone == RIGCACTUS_ZONE);
    CLAIM(refusal == (date != RIGCACTUS_ACCEPTED ? date : clock != RIGCACTUS_ACCEPTED ? clock : zone));
}

/* What checking says of an element that a text is put into, if it can stand in a value and the record is not too long; else the number given. */
static int check_around(const char *before, struct lent text, const char *after, int64_t offset, int otherwise)
{
    size_t head = strlen(before), tail = strlen(after), length = head + text.length + tail;
    uint8_t *record = two.start + ROOM - length;

    for (size_t i = 0; i < text.length; i++)
        if (text.bytes[i] < ' ' || text.bytes[i] > '~' || strchr("<&\"", text.bytes[i]))
            return otherwise;
    if (length > RIGCACTUS_MOST_BYTES)
        return otherwise;
    memcpy(record, before, head);
    memcpy(record + head, text.bytes, text.length);
    memcpy(record + head + text.length, after, tail);
    return rigcactus_refusal(rigcactus_check(record, length, offset));
}

/* A text is refused for the same in a record, as a value and as a bound; beside a nullFlavor, where it may not stand, too. */
static void claim_as_record(struct lent text, int64_t offset, int refusal)
{
    int rule = refusal == RIGCACTUS_ACCEPTED ? RIGCACTUS_RULE : refusal;

    CLAIM(check_around("<t xsi:type=\"TS\" value=\"", text, "\"/>", offset, refusal) == refusal);
    CLAIM(check_around("<t xsi:type=\"IVL_TS\" lowClosed=\"true\"><low value=\"", text, "\"/></t>", offset, refusal) == refusal);
    CLAIM(check_around("<t xsi:type=\"TS\" nullFlavor=\"NI\" value=\"", text, "\"/>", offset, rule) == rule);
}

/* What listing answers for an interval from a time to the same, with flags; what it writes is put into the stretch. The time is accepted. */
static uint64_t list_between(struct lent text, const char *flags, int64_t offset, struct rigcactus_stretch *stretch)
{
    char record[200];
    uint8_t list[RIGCACTUS_STRETCH_BYTES] = {0};
    int time = (int)text.length;
    const char *digits = (const char *)text.bytes;
    int length = snprintf(record, sizeof record, "<t xsi:type=\"IVL_TS\" %s><low value=\"%.*s\"/><high value=\"%.*s\"/></t>", flags, time, digits, time, digits);
    uint64_t answer = rigcactus_list((const uint8_t *)record, (size_t)length, offset, list, sizeof list);
    *stretch = rigcactus_stretch_at(list, 0);
    return answer;
}

/* A time that is coarser than a second is a whole unit as both bounds, closed, and else an instant. Without one of its bounds it is no time. */
static void claim_as_bounds(struct lent text, int64_t offset, int precision, int64_t tick)
{
    static const int64_t least[] = {365 * 24 * 60, 28 * 24 * 60, 24 * 60, 60, 1}, most[] = {366 * 24 * 60, 31 * 24 * 60, 24 * 60, 60, 1};
    struct rigcactus_stretch whole, none;

    CLAIM(list_between(text, "lowClosed=\"true\" highClosed=\"true\"", offset, &whole) == 1 << 8);
    CLAIM(whole.low_kind == RIGCACTUS_CLOSED && whole.low_tick == tick);
    if (precision < 14) {
        int64_t minute = 60 * RIGCACTUS_TICKS_PER_SECOND, unit = precision / 2 - 2;
        CLAIM(whole.high_kind == RIGCACTUS_OPEN);
        CLAIM(tick + least[unit] * minute <= whole.high_tick && whole.high_tick <= tick + most[unit] * minute);
    } else {
        CLAIM(whole.high_kind == RIGCACTUS_CLOSED && whole.high_tick == tick);
    }
    CLAIM(list_between(text, "lowClosed=\"true\" highClosed=\"false\"", offset, &none) == 0);
    CLAIM(list_between(text, "lowClosed=\"false\" highClosed=\"true\"", offset, &none) == 0);
    CLAIM(list_between(text, "lowClosed=\"false\" highClosed=\"false\"", offset, &none) == 0);
}

static void try_tick(const uint8_t *bytes, size_t length, int64_t offset, uint8_t fill)
{
    uint8_t before[8];
    memset(before, fill, sizeof before);
    struct lent text = place(one, bytes, length, 1);
    int64_t *tick = (int64_t *)place(tick_room, before, 8, 1).bytes, due;
    memcpy(&due, before, 8);
    uint64_t answer = rigcactus_tick(text.bytes, text.length, offset, tick);
    int refusal = rigcactus_refusal(answer);

    see(1, answer, rigcactus_precision(answer));
    CLAIM(answer == second_tick(text.bytes, text.length, offset, &due) && *tick == due);
    CLAIM((refusal == RIGCACTUS_OFFSET) == !is_offset(offset));
    CLAIM((refusal == RIGCACTUS_TOO_LONG) == (is_offset(offset) && length > RIGCACTUS_MOST_BYTES));
    if (refusal == RIGCACTUS_ACCEPTED) {
        claim_tick(text, offset, answer, *tick);
        claim_as_bounds(text, offset, rigcactus_precision(answer), *tick);
    } else {
        CLAIM(answer == RIGCACTUS_OFFSET || answer == RIGCACTUS_TOO_LONG || answer == RIGCACTUS_VALUE || answer == RIGCACTUS_DATE ||
              answer == RIGCACTUS_CLOCK || answer == RIGCACTUS_ZONE);
        CLAIM(memcmp(tick, before, 8) == 0);
    }
    claim_parts(text, offset, refusal);
    claim_as_record(text, offset, refusal);
    CLAIM(length == 0 || memcmp(text.bytes, bytes, length) == 0);
    text = place(one, bytes, length, 0);
    tick = (int64_t *)place(tick_room, before, 8, 0).bytes;
    CLAIM(rigcactus_tick(text.bytes, text.length, offset, tick) == answer && *tick == due);
}

/* ---- Check -------------------------------------------------------------------------------------------------------- */

/* White space around a record changes nothing, as long as it is not too long. */
static void claim_space_around(const uint8_t *bytes, size_t length, int64_t offset, uint64_t answer)
{
    uint8_t *with_space = two.start + ROOM - length - SPACES;

    if (length + SPACES > RIGCACTUS_MOST_BYTES)
        return;
    with_space[0] = '\n';
    if (length > 0)
        memcpy(with_space + 1, bytes, length);
    with_space[length + 1] = ' ';
    CLAIM(rigcactus_check(with_space, length + SPACES, offset) == answer);
}

static void try_check(const uint8_t *bytes, size_t length, int64_t offset)
{
    struct lent record = place(one, bytes, length, 1);
    uint64_t answer = check(record, offset);
    int refusal = rigcactus_refusal(answer);

    see(2, answer, 0);
    CLAIM(answer == second_check(record.bytes, record.length, offset));
    CLAIM(answer == (uint64_t)refusal && is_of_check(refusal));
    claim_first_refusals(record, offset, refusal);
    /* The agreed offset decides OFFSET, and whether bounds are crossed, which is RULE; nothing else. */
    if (is_offset(offset)) {
        uint64_t other = check(record, other_offset(offset));
        CLAIM(other == answer || (answer == RIGCACTUS_ACCEPTED && other == RIGCACTUS_RULE) || (answer == RIGCACTUS_RULE && other == RIGCACTUS_ACCEPTED));
    }
    claim_space_around(bytes, length, offset, answer);
    CLAIM(length == 0 || memcmp(record.bytes, bytes, length) == 0);
    CLAIM(check(place(one, bytes, length, 0), offset) == answer);
}

/* ---- List --------------------------------------------------------------------------------------------------------- */

/* The place where a bound lies: a tick is twice its number, and the gap after it one more. */
static int64_t low_place(struct rigcactus_stretch stretch)
{
    return 2 * stretch.low_tick + (stretch.low_kind == RIGCACTUS_OPEN);
}

static int64_t high_place(struct rigcactus_stretch stretch)
{
    return 2 * stretch.high_tick - (stretch.high_kind == RIGCACTUS_OPEN);
}

static void claim_bound(int kind, int64_t tick, int may_be_unbounded)
{
    CLAIM(RIGCACTUS_UNBOUNDED <= kind && kind <= RIGCACTUS_CLOSED);
    if (kind == RIGCACTUS_UNBOUNDED)
        CLAIM(may_be_unbounded && tick == 0);
    else
        CLAIM(FIRST_TICK <= tick && tick <= LAST_BOUND);
}

/* A list has stretches of one place or more, that rise, and with a place between one and the next that is in neither. */
static void claim_stretches(const uint8_t *list, size_t count)
{
    struct rigcactus_stretch before = {0, 0, 0, 0};

    for (size_t i = 0; i < count; i++) {
        struct rigcactus_stretch stretch = rigcactus_stretch_at(list, i);
        claim_bound(stretch.low_kind, stretch.low_tick, i == 0);
        claim_bound(stretch.high_kind, stretch.high_tick, i == count - 1);
        if (stretch.low_kind != RIGCACTUS_UNBOUNDED && stretch.high_kind != RIGCACTUS_UNBOUNDED)
            CLAIM(low_place(stretch) <= high_place(stretch));
        if (i > 0)
            CLAIM(high_place(before) + 1 < low_place(stretch));
        before = stretch;
    }
}

static int is_in_years(int kind, int64_t tick)
{
    return kind == RIGCACTUS_UNBOUNDED || (0 <= tick && tick <= LAST_IN_YEARS);
}

/* A list can be printed, unless it has a tick outside years 0001 to 9999. */
static void claim_printed(const uint8_t *list, size_t count)
{
    static uint8_t record[MOST_RECORD];
    int in_years = 1;

    for (size_t i = 0; i < count; i++) {
        struct rigcactus_stretch stretch = rigcactus_stretch_at(list, i);
        in_years &= is_in_years(stretch.low_kind, stretch.low_tick) && is_in_years(stretch.high_kind, stretch.high_tick);
    }
    uint64_t answer = rigcactus_print(list, count * RIGCACTUS_STRETCH_BYTES, record, sizeof record);
    CLAIM(rigcactus_refusal(answer) == (in_years ? RIGCACTUS_ACCEPTED : RIGCACTUS_NOT_WRITABLE));
}

/* What checking says of a record that is listed. */
static void claim_checked(struct lent record, int64_t offset, int refusal)
{
    int checked = rigcactus_refusal(check(record, offset));

    if (checked == RIGCACTUS_ACCEPTED)
        CLAIM(refusal == RIGCACTUS_ACCEPTED || refusal == RIGCACTUS_TYPE || refusal == RIGCACTUS_UNKNOWN_BOUND ||
              refusal == RIGCACTUS_TOO_MANY || refusal == RIGCACTUS_NO_ROOM);
    else if (!comes_before(RIGCACTUS_TYPE, checked))
        CLAIM(refusal == checked);
    else
        CLAIM(refusal == checked || refusal == RIGCACTUS_TYPE);
}

/* With room enough the answer is the same, but that NO ROOM becomes a count that had no room; and the stretches are the same. */
static void claim_with_room(struct lent record, int64_t offset, struct lent list, uint64_t answer)
{
    uint8_t all[RIGCACTUS_MOST_LIST_BYTES];
    memset(all, 0x5A, sizeof all);
    uint64_t with_room = rigcactus_list(record.bytes, record.length, offset, all, sizeof all);
    size_t count = rigcactus_count(with_room), written = count * RIGCACTUS_STRETCH_BYTES;

    if (rigcactus_refusal(answer) == RIGCACTUS_NO_ROOM) {
        CLAIM(with_room == (uint64_t)count << 8);
        CLAIM(list.length / RIGCACTUS_STRETCH_BYTES < count && count <= RIGCACTUS_MOST_INTERVALS);
        claim_stretches(all, count);
    } else {
        CLAIM(with_room == answer);
        CLAIM(memcmp(all, list.bytes, written) == 0);
    }
    CLAIM(is_all(all + written, sizeof all - written, 0x5A));
}

static void try_list(const uint8_t *bytes, size_t length, int64_t offset, size_t list_length, uint8_t fill)
{
    static uint8_t before[MOST_LIST], due[MOST_LIST];
    memset(before, fill, list_length);
    memset(due, fill, list_length);
    struct lent record = place(one, bytes, length, 1), list = place(list_room, before, list_length, 1);
    /* Bytes before the list, which are to stay too; behind it is the fence. */
    memset(list.bytes - 64, 0x69, 64);
    uint64_t answer = rigcactus_list(record.bytes, record.length, offset, list.bytes, list.length);
    int refusal = rigcactus_refusal(answer);
    size_t count = rigcactus_count(answer), written = count * RIGCACTUS_STRETCH_BYTES;

    see(3, answer, count);
    CLAIM(answer == second_list(record.bytes, record.length, offset, due, list_length));
    CLAIM(memcmp(list.bytes, due, list_length) == 0);
    CLAIM(is_of_check(refusal) || refusal == RIGCACTUS_UNKNOWN_BOUND || refusal == RIGCACTUS_TOO_MANY || refusal == RIGCACTUS_NO_ROOM);
    CLAIM(refusal == RIGCACTUS_ACCEPTED ? answer == (uint64_t)count << 8 : answer == (uint64_t)refusal);
    CLAIM(count <= RIGCACTUS_MOST_INTERVALS && written <= list.length);
    CLAIM(is_all(list.bytes + written, list.length - written, fill) && is_all(list.bytes - 64, 64, 0x69));
    claim_stretches(list.bytes, count);
    if (refusal == RIGCACTUS_ACCEPTED)
        claim_printed(list.bytes, count);
    claim_checked(record, offset, refusal);
    claim_with_room(record, offset, list, answer);
    CLAIM(length == 0 || memcmp(record.bytes, bytes, length) == 0);
    record = place(one, bytes, length, 0);
    list = place(list_room, before, list_length, 0);
    CLAIM(rigcactus_list(record.bytes, record.length, offset, list.bytes, list.length) == answer);
    CLAIM(memcmp(list.bytes, due, list_length) == 0);
}

/* ---- Compare ------------------------------------------------------------------------------------------------------ */

static uint64_t compare(struct lent first, struct lent second, int64_t offset)
{
    return rigcactus_compare(first.bytes, first.length, second.bytes, second.length, offset);
}

static uint64_t refused(int record, int refusal)
{
    return (uint64_t)record << 8 | (uint64_t)refusal;
}

/* Whether a record is of a type that can be listed; asked of an accepted record. */
static int is_listed(struct lent record, int64_t offset)
{
    return rigcactus_list(record.bytes, record.length, offset, NULL, 0) != RIGCACTUS_TYPE;
}

/* A record with itself: TYPE if it is a set; else never no, and unknown where it is null in some way. */
static void claim_itself(struct lent record, int64_t offset, uint64_t other)
{
    uint64_t itself = compare(record, record, offset);

    if (itself == refused(2, RIGCACTUS_TYPE))
        CLAIM(is_listed(record, offset) && other == itself);
    else
        CLAIM(itself == RIGCACTUS_YES << 16 || itself == RIGCACTUS_UNKNOWN << 16);
    if (other == RIGCACTUS_YES << 16)
        CLAIM(itself == other);
}

static void claim_compared(struct lent first, struct lent second, int64_t offset, uint64_t answer)
{
    int comparison = rigcactus_comparison(answer);

    if (answer != refused(2, RIGCACTUS_TYPE))
        CLAIM(RIGCACTUS_YES <= comparison && comparison <= RIGCACTUS_UNKNOWN && answer == (uint64_t)comparison << 16);
    if (is_listed(first, offset) != is_listed(second, offset))
        CLAIM(answer == refused(2, RIGCACTUS_TYPE));
    CLAIM(compare(second, first, offset) == answer);
    claim_itself(first, offset, answer);
    claim_itself(second, offset, answer);
}

static void try_compare(const uint8_t *bytes, size_t length, int64_t offset)
{
    const uint8_t *part = length > 0 ? memchr(bytes, 0xFF, length) : NULL;
    size_t first_length = part ? (size_t)(part - bytes) : length, second_length = part ? length - first_length - 1 : length;
    const uint8_t *second_bytes = part ? part + 1 : bytes;
    struct lent first = place(one, bytes, first_length, 1), second = place(two, second_bytes, second_length, 1);
    uint64_t answer = compare(first, second, offset);
    int first_refusal = rigcactus_refusal(check(first, offset)), second_refusal = rigcactus_refusal(check(second, offset));

    see(4, answer, rigcactus_comparison(answer) << 2 | rigcactus_refused_record(answer));
    CLAIM(answer == second_compare(first.bytes, first.length, second.bytes, second.length, offset));
    if (first_refusal != RIGCACTUS_ACCEPTED)
        CLAIM(answer == refused(1, first_refusal));
    else if (second_refusal != RIGCACTUS_ACCEPTED)
        CLAIM(answer == refused(2, second_refusal));
    else
        claim_compared(first, second, offset, answer);
    CLAIM(first_length == 0 || memcmp(first.bytes, bytes, first_length) == 0);
    CLAIM(second_length == 0 || memcmp(second.bytes, second_bytes, second_length) == 0);
    CLAIM(compare(place(one, bytes, first_length, 0), place(two, second_bytes, second_length, 0), offset) == answer);
}

/* ---- Print -------------------------------------------------------------------------------------------------------- */

/* A printed record is accepted, and listing it gives the list back, under any agreed offset. */
static void claim_read_back(struct lent list, struct lent record, int64_t offset)
{
    uint8_t again[RIGCACTUS_MOST_LIST_BYTES];

    CLAIM(check(record, offset) == RIGCACTUS_ACCEPTED);
    uint64_t listed = rigcactus_list(record.bytes, record.length, offset, again, list.length);
    CLAIM(listed == (uint64_t)(list.length / RIGCACTUS_STRETCH_BYTES) << 8);
    CLAIM(list.length == 0 || memcmp(again, list.bytes, list.length) == 0);
}

/* A list that can be printed is one as listing writes it, and its record fits into just its length and not into less. */
static void claim_room(struct lent list, size_t length)
{
    static uint8_t record[MOST_RECORD];

    CLAIM(list.length % RIGCACTUS_STRETCH_BYTES == 0 && list.length <= RIGCACTUS_MOST_LIST_BYTES);
    claim_stretches(list.bytes, list.length / RIGCACTUS_STRETCH_BYTES);
    CLAIM(rigcactus_print(list.bytes, list.length, record, length) == (uint64_t)length << 8);
    CLAIM(rigcactus_print(list.bytes, list.length, record, length - 1) == RIGCACTUS_NO_ROOM);
    CLAIM(rigcactus_print(list.bytes, list.length, NULL, 0) == RIGCACTUS_NO_ROOM);
}

/* Whether a list can be printed does not go by the room: with room enough NO ROOM becomes a length that had no room. */
static void claim_with_enough(struct lent list, size_t record_length, uint64_t answer)
{
    static uint8_t record[MOST_RECORD];
    uint64_t enough = rigcactus_print(list.bytes, list.length, record, sizeof record);

    if (answer == RIGCACTUS_NO_ROOM)
        CLAIM(rigcactus_refusal(enough) == RIGCACTUS_ACCEPTED && rigcactus_length(enough) > record_length);
    else
        CLAIM(enough == answer);
    if (list.length == 0)
        CLAIM(rigcactus_print(NULL, 0, record, sizeof record) == enough);
    if (rigcactus_refusal(enough) == RIGCACTUS_ACCEPTED)
        claim_room(list, rigcactus_length(enough));
}

static void try_print(const uint8_t *bytes, size_t length, int64_t offset, size_t record_length, uint8_t fill)
{
    static uint8_t before[MOST_RECORD], due[MOST_RECORD];
    memset(before, fill, record_length);
    memset(due, fill, record_length);
    struct lent list = place(one, bytes, length, 1), record = place(record_room, before, record_length, 1);
    /* Bytes before the record, which are to stay too; behind it is the fence. */
    memset(record.bytes - 64, 0x69, 64);
    uint64_t answer = rigcactus_print(list.bytes, list.length, record.bytes, record.length);
    size_t written = rigcactus_length(answer);

    see(5, answer, length / RIGCACTUS_STRETCH_BYTES);
    CLAIM(answer == second_print(list.bytes, list.length, due, record_length));
    CLAIM(memcmp(record.bytes, due, record_length) == 0);
    CLAIM(answer == RIGCACTUS_NOT_WRITABLE || answer == RIGCACTUS_NO_ROOM || answer == (uint64_t)written << 8);
    CLAIM(written <= record.length);
    CLAIM(is_all(record.bytes + written, record.length - written, fill) && is_all(record.bytes - 64, 64, 0x69));
    claim_with_enough(list, record_length, answer);
    if (rigcactus_refusal(answer) == RIGCACTUS_ACCEPTED) {
        claim_read_back(list, (struct lent){record.bytes, written}, is_offset(offset) ? offset : 0);
        claim_read_back(list, (struct lent){record.bytes, written}, other_offset(offset));
    }
    CLAIM(length == 0 || memcmp(list.bytes, bytes, length) == 0);
    list = place(one, bytes, length, 0);
    record = place(record_room, before, record_length, 0);
    CLAIM(rigcactus_print(list.bytes, list.length, record.bytes, record.length) == answer);
    CLAIM(memcmp(record.bytes, due, record_length) == 0);
}

/* ---- Totals ------------------------------------------------------------------------------------------------------- */

/* Numbers at the last place before the fence, or at the first after it. */
static uint64_t *place_numbers(struct fenced fenced, const uint64_t *numbers, size_t count, int last)
{
    return (uint64_t *)place(fenced, (const uint8_t *)numbers, 8 * count, last).bytes;
}

static int is_same(const uint64_t *first, const uint64_t *second, size_t count)
{
    return memcmp(first, second, 8 * count) == 0;
}

static int is_desk(uint64_t desk)
{
    return desk == 1 || desk == 2;
}

/* The counts of a desk: records added, null and refused. */
static uint64_t *counts_of(uint64_t *table, uint64_t desk)
{
    return table + 1 + 3 * (desk - 1);
}

/* A row of a table: its desk, its currency and its total. */
static uint64_t *row_of(uint64_t *table, size_t row)
{
    return table + 7 + 3 * row;
}

/* The part of a desk is not damaged in a table whose report is given, and the report has its counts and its rows in their order. */
static void claim_part(uint64_t *table, uint64_t desk, const uint64_t *report, size_t rows)
{
    size_t found = 0;

    CLAIM(is_same(report, counts_of(table, desk), 3));
    for (size_t i = 0; i < 3; i++)
        CLAIM(report[i] <= RIGCACTUS_MOST_COUNTED);
    CLAIM(report[0] + report[1] + report[2] <= RIGCACTUS_MOST_COUNTED);
    for (size_t i = 0; i < table[0]; i++)
        if (row_of(table, i)[0] == desk) {
            CLAIM(found < rows && is_same(report + 3 + 2 * found, row_of(table, i) + 1, 2));
            struct rigcactus_total row = rigcactus_total_at(report, found);
            for (size_t letter = 0; letter < 3; letter++)
                CLAIM('A' <= row.currency[letter] && row.currency[letter] <= 'Z');
            CLAIM(row.currency[3] == '\0' && row_of(table, i)[1] >> 24 == 0);
            CLAIM(-RIGCACTUS_MOST_TOTAL <= row.total && row.total <= RIGCACTUS_MOST_TOTAL);
            for (size_t j = 0; j < found; j++)
                CLAIM(report[3 + 2 * j] != report[3 + 2 * found]);
            found++;
        }
    CLAIM(found == rows && rows <= RIGCACTUS_MOST_CURRENCIES);
}

/* Has a desk reported: nothing past its rows is changed, nor the table. The answer is what it is refused for, if it is. */
static uint64_t report_of(const uint64_t *numbers, uint64_t desk, uint8_t fill, uint64_t *due)
{
    uint64_t before[REPORT];
    memset(before, fill, sizeof before);
    memset(due, fill, sizeof before);
    uint64_t *table = place_numbers(table_room, numbers, TABLE, 1), *report = place_numbers(report_room, before, REPORT, 1);
    memset((uint8_t *)report - 64, 0x69, 64);
    uint64_t answer = rigcactus_totals_report(table, desk, report);
    int refusal = rigcactus_refusal(answer);
    size_t rows = rigcactus_count(answer), written = refusal == RIGCACTUS_ACCEPTED ? 3 + 2 * rows : 0;

    CLAIM(answer == second_totals_report(numbers, desk, due) && is_same(report, due, REPORT));
    CLAIM((refusal == RIGCACTUS_NO_DESK) == !is_desk(desk));
    CLAIM(refusal == RIGCACTUS_ACCEPTED || answer == RIGCACTUS_NO_DESK || answer == RIGCACTUS_DAMAGED);
    CLAIM(written <= REPORT && is_all((uint8_t *)(report + written), 8 * (REPORT - written), fill));
    CLAIM(is_all((uint8_t *)report - 64, 64, 0x69) && is_same(table, numbers, TABLE));
    if (refusal == RIGCACTUS_ACCEPTED)
        claim_part(table, desk, report, rows);
    table = place_numbers(table_room, numbers, TABLE, 0);
    report = place_numbers(report_room, before, REPORT, 0);
    CLAIM(rigcactus_totals_report(table, desk, report) == answer && is_same(report, due, REPORT));
    return (uint64_t)refusal;
}

/* Whether a table is damaged: both desks say so, or neither. One that is not has rows of the two desks alone. */
static int is_damaged(const uint64_t *numbers, uint8_t fill)
{
    uint64_t first[REPORT], second[REPORT];
    int damaged = report_of(numbers, 1, fill, first) == RIGCACTUS_DAMAGED;

    CLAIM((report_of(numbers, 2, fill, second) == RIGCACTUS_DAMAGED) == damaged);
    if (!damaged) {
        CLAIM(numbers[0] <= 2 * RIGCACTUS_MOST_CURRENCIES);
        for (size_t i = 0; i < numbers[0]; i++)
            CLAIM(is_desk(numbers[7 + 3 * i]));
    }
    return damaged;
}

/* What a record comes to with an empty table, which is opened here; the table afterwards has its currency and amount, if it has any. */
static uint64_t add_alone(uint64_t desk, struct lent record, int64_t offset, uint8_t fill, uint64_t *alone)
{
    memset(alone, fill, TABLE_BYTES);
    CLAIM(rigcactus_totals_open(alone) == 0 && is_all((uint8_t *)alone, TABLE_BYTES, 0));
    uint64_t answer = rigcactus_totals_add(alone, desk, record.bytes, record.length, offset);
    int refusal = rigcactus_refusal(answer), checked = rigcactus_refusal(check(record, offset));
    const uint64_t *own = counts_of(alone, desk), *other = counts_of(alone, 3 - desk);

    CLAIM(own[0] + own[1] + own[2] == 1 && other[0] + other[1] + other[2] == 0);
    CLAIM(own[0] == (answer == RIGCACTUS_ADDED << 8) && own[1] == (answer == RIGCACTUS_NULL << 8));
    CLAIM(alone[0] == own[0] && (own[0] == 0 || row_of(alone, 0)[0] == desk));
    CLAIM(is_all((uint8_t *)row_of(alone, alone[0]), 24 * (32 - alone[0]), 0));
    CLAIM(own[2] == 0 || answer == (uint64_t)refusal);
    if (checked == RIGCACTUS_ACCEPTED)
        CLAIM(refusal == RIGCACTUS_ACCEPTED || refusal == RIGCACTUS_TYPE);
    else
        CLAIM(refusal == checked || (refusal == RIGCACTUS_TYPE && comes_before(RIGCACTUS_TYPE, checked)));
    /* Money has no times. */
    CLAIM(refusal != RIGCACTUS_DATE && refusal != RIGCACTUS_CLOCK && refusal != RIGCACTUS_ZONE);
    return answer;
}

/* The answer that is due for an amount, and the numbers that are to change in the table before: its row, rows held, and a count. */
static uint64_t due_for_amount(uint64_t *table, uint64_t desk, uint64_t currency, int64_t amount)
{
    size_t row = table[0], own = 0;
    int64_t total = amount;
    uint64_t *counts = counts_of(table, desk);

    for (size_t i = 0; i < table[0]; i++) {
        own += row_of(table, i)[0] == desk;
        if (row_of(table, i)[0] == desk && row_of(table, i)[1] == currency)
            row = i;
    }
    if (row < table[0])
        total += (int64_t)row_of(table, row)[2];
    counts[2]++;
    if (row == table[0] && own == RIGCACTUS_MOST_CURRENCIES)
        return RIGCACTUS_NO_ROW;
    if (total < -RIGCACTUS_MOST_TOTAL || total > RIGCACTUS_MOST_TOTAL)
        return RIGCACTUS_TOTAL;
    counts[2]--;
    counts[0]++;
    table[0] += row == table[0];
    memcpy(row_of(table, row), (uint64_t[]){desk, currency, (uint64_t)total}, 24);
    return RIGCACTUS_ADDED << 8;
}

/* What a record does to a table follows from what it does to an empty one, unless the table is damaged or the desk's day is full. */
static uint64_t due_for(uint64_t *table, uint64_t desk, struct lent record, int64_t offset, uint8_t fill)
{
    uint64_t alone[TABLE];

    if (!is_desk(desk))
        return RIGCACTUS_NO_DESK;
    if (is_damaged(table, fill))
        return RIGCACTUS_DAMAGED;
    uint64_t *counts = counts_of(table, desk);
    if (counts[0] + counts[1] + counts[2] == RIGCACTUS_MOST_COUNTED)
        return RIGCACTUS_DAY_FULL;
    uint64_t answer = add_alone(desk, record, offset, fill, alone);
    const uint64_t *added = counts_of(alone, desk);
    if (added[0] == 1)
        return due_for_amount(table, desk, row_of(alone, 0)[1], (int64_t)row_of(alone, 0)[2]);
    counts[1] += added[1];
    counts[2] += added[2];
    return answer;
}

/* A start drops the desk's rows and counts: the other's rows move up in their order, and what stands past them stays. */
static uint64_t due_for_start(uint64_t *table, uint64_t desk, uint8_t fill)
{
    size_t kept = 0;

    if (!is_desk(desk))
        return RIGCACTUS_NO_DESK;
    if (is_damaged(table, fill))
        return RIGCACTUS_DAMAGED;
    for (size_t i = 0; i < table[0]; i++)
        if (row_of(table, i)[0] != desk)
            memmove(row_of(table, kept++), row_of(table, i), 24);
    table[0] = kept;
    memset(counts_of(table, desk), 0, 24);
    return 0;
}

/*
 * The other desk's report is the same after a call as before it. And with the other desk's day started anew, so that nothing of it is left,
 * the call comes to the same for the one that makes it.
 */
static void claim_apart(const uint64_t *before, const uint64_t *after, uint64_t desk, struct lent record, int64_t offset, uint8_t fill, uint64_t answer)
{
    uint64_t one_report[REPORT], other_report[REPORT], table[TABLE];

    CLAIM(report_of(before, 3 - desk, fill, one_report) == report_of(after, 3 - desk, fill, other_report));
    CLAIM(is_same(one_report, other_report, REPORT));
    memcpy(table, before, TABLE_BYTES);
    CLAIM(rigcactus_totals_start(table, 3 - desk) == 0);
    CLAIM(rigcactus_totals_add(table, desk, record.bytes, record.length, offset) == answer);
    CLAIM(report_of(table, desk, fill, one_report) == report_of(after, desk, fill, other_report));
    CLAIM(is_same(one_report, other_report, REPORT));
}

/* Starts a desk's day. */
static void try_start(uint64_t *numbers, uint64_t desk, uint8_t fill)
{
    uint64_t due[TABLE], second[TABLE], report[REPORT], other[REPORT];
    memcpy(due, numbers, TABLE_BYTES);
    memcpy(second, numbers, TABLE_BYTES);
    uint64_t due_answer = due_for_start(due, desk, fill);
    uint64_t *table = place_numbers(table_room, numbers, TABLE, 1);
    memset((uint8_t *)table - 64, 0x69, 64);
    uint64_t answer = rigcactus_totals_start(table, desk);

    see(6, answer, 48 | (table[0] & 15));
    CLAIM(answer == due_answer && is_same(table, due, TABLE));
    CLAIM(answer == second_totals_start(second, desk) && is_same(table, second, TABLE));
    CLAIM(is_all((uint8_t *)table - 64, 64, 0x69));
    table = place_numbers(table_room, numbers, TABLE, 0);
    CLAIM(rigcactus_totals_start(table, desk) == answer && is_same(table, due, TABLE));
    if (answer == 0) {
        CLAIM(report_of(numbers, 3 - desk, fill, report) == report_of(due, 3 - desk, fill, other) && is_same(report, other, REPORT));
        CLAIM(report_of(due, desk, fill, report) == 0 && is_all((uint8_t *)report, 24, 0));
    }
    memcpy(numbers, due, TABLE_BYTES);
}

/* Adds a record of a desk to a table. */
static void try_add(uint64_t *numbers, uint64_t desk, const uint8_t *bytes, size_t length, int64_t offset, uint8_t fill)
{
    uint64_t due[TABLE], second[TABLE];
    memcpy(due, numbers, TABLE_BYTES);
    memcpy(second, numbers, TABLE_BYTES);
    struct lent record = place(one, bytes, length, 1);
    uint64_t due_answer = due_for(due, desk, record, offset, fill);
    uint64_t *table = place_numbers(table_room, numbers, TABLE, 1);
    memset((uint8_t *)table - 64, 0x69, 64);
    uint64_t answer = rigcactus_totals_add(table, desk, record.bytes, record.length, offset);

    see(6, answer, rigcactus_entry(answer) << 4 | (table[0] & 15));
    CLAIM(answer == due_answer && is_same(table, due, TABLE));
    CLAIM(answer == second_totals_add(second, desk, record.bytes, record.length, offset) && is_same(table, second, TABLE));
    CLAIM(is_all((uint8_t *)table - 64, 64, 0x69));
    CLAIM(length == 0 || memcmp(record.bytes, bytes, length) == 0);
    if (answer != RIGCACTUS_NO_DESK && answer != RIGCACTUS_DAMAGED)
        claim_apart(numbers, due, desk, record, offset, fill, answer);
    table = place_numbers(table_room, numbers, TABLE, 0);
    record = place(one, bytes, length, 0);
    CLAIM(rigcactus_totals_add(table, desk, record.bytes, record.length, offset) == answer && is_same(table, due, TABLE));
    CLAIM(is_damaged(due, fill) == is_damaged(numbers, fill));
    memcpy(numbers, due, TABLE_BYTES);
}

/* Does one step: its first byte says what, and the others are the record. */
static void try_step(uint64_t *numbers, const uint8_t *bytes, size_t length, int64_t offset, uint8_t fill)
{
    uint8_t what = length > 0 ? bytes[0] : '1';
    uint64_t desk = (what & 3) + (what & 8 ? UINT64_C(1) << 32 : 0), report[REPORT];

    if (what & 4)
        try_start(numbers, desk, fill);
    else
        try_add(numbers, desk, bytes + (length > 0), length - (length > 0), offset, fill);
    report_of(numbers, desk, fill, report);
}

static void try_totals(const uint8_t *bytes, size_t length, int64_t offset, uint8_t fill)
{
    uint64_t table[TABLE] = {0};
    size_t head = length < TABLE_BYTES ? length : TABLE_BYTES;
    if (head > 0)
        memcpy(table, bytes, head);
    const uint8_t *step = bytes + head, *end = bytes + length;

    for (int i = 0; i < MOST_STEPS; i++) {
        const uint8_t *part = step < end ? memchr(step, 0xFF, (size_t)(end - step)) : NULL;
        try_step(table, step, (size_t)((part ? part : end) - step), offset, fill);
        if (!part)
            return;
        step = part + 1;
    }
}

/* ---- Inputs ------------------------------------------------------------------------------------------------------- */

int LLVMFuzzerTestOneInput(const uint8_t *input, size_t input_len);

int LLVMFuzzerTestOneInput(const uint8_t *input, size_t input_len)
{
    if (input_len < HEAD || input_len > HEAD + ROOM - 64)
        return 0;
    set_up();
    uint16_t low = (uint16_t)(input[1] | input[2] << 8), room = (uint16_t)(input[3] | input[4] << 8);
    uint8_t fill = input[5];
    int far = fill & 1;
    int64_t offset = (int64_t)(int16_t)low * (far ? INT64_C(1) << 48 : 1);
    uint64_t cut_room = far ? (uint64_t)room << 48 : room;
    const uint8_t *bytes = input + HEAD;
    size_t length = input_len - HEAD;

    switch (input[0] % 7) {
    case 0: try_cut(bytes, length, cut_room); break;
    case 1: try_tick(bytes, length, offset, fill); break;
    case 2: try_check(bytes, length, offset); break;
    case 3: try_list(bytes, length, offset, room & MOST_LIST, fill); break;
    case 4: try_compare(bytes, length, offset); break;
    case 5: try_print(bytes, length, offset, room & MOST_RECORD, fill); break;
    default: try_totals(bytes, length, offset, fill); break;
    }
    return 0;
}

#ifdef REPLAY
/* Tries stored inputs, for a build without a fuzzer: replay FILE.. */
int main(int count, char **names)
{
    static uint8_t input[HEAD + ROOM];

    for (int i = 1; i < count; i++) {
        FILE *file = fopen(names[i], "rb");
        if (!file) {
            perror(names[i]);
            return 2;
        }
        size_t length = fread(input, 1, sizeof input, file);
        fclose(file);
        LLVMFuzzerTestOneInput(input, length);
    }
    printf("%d inputs\n", count - 1);
    return 0;
}
#endif
