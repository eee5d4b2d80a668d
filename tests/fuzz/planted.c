/*
 * Services with a planted fault each, to see that tests/fuzz/services.c finds it. The program is linked with --wrap for each service, so
 * that the calls of services.c come here, and PLANTED, a number from 1 on, says which fault there is. tests/fuzz/planted runs them all.
 */
#include "rigcactus.h"

#include <stdlib.h>
#include <string.h>

uint64_t __real_rigcactus_cut(const uint8_t *text, size_t text_len, uint64_t room);
uint64_t __real_rigcactus_tick(const uint8_t *text, size_t text_len, int64_t offset, int64_t *tick);
uint64_t __real_rigcactus_check(const uint8_t *record, size_t record_len, int64_t offset);
uint64_t __real_rigcactus_list(const uint8_t *record, size_t record_len, int64_t offset, uint8_t *list, size_t list_len);
uint64_t __real_rigcactus_compare(const uint8_t *first, size_t first_len, const uint8_t *second, size_t second_len, int64_t offset);
uint64_t __real_rigcactus_print(const uint8_t *list, size_t list_len, uint8_t *record, size_t record_len);
uint64_t __real_rigcactus_totals_open(uint64_t table[RIGCACTUS_TABLE_NUMBERS]);
uint64_t __real_rigcactus_totals_start(uint64_t table[RIGCACTUS_TABLE_NUMBERS], uint64_t desk);
uint64_t __real_rigcactus_totals_add(uint64_t table[RIGCACTUS_TABLE_NUMBERS], uint64_t desk, const uint8_t *record, size_t record_len, int64_t offset);
uint64_t __real_rigcactus_totals_report(const uint64_t table[RIGCACTUS_TABLE_NUMBERS], uint64_t desk, uint64_t report[RIGCACTUS_REPORT_NUMBERS]);

uint64_t __wrap_rigcactus_cut(const uint8_t *text, size_t text_len, uint64_t room);
uint64_t __wrap_rigcactus_tick(const uint8_t *text, size_t text_len, int64_t offset, int64_t *tick);
uint64_t __wrap_rigcactus_check(const uint8_t *record, size_t record_len, int64_t offset);
uint64_t __wrap_rigcactus_list(const uint8_t *record, size_t record_len, int64_t offset, uint8_t *list, size_t list_len);
uint64_t __wrap_rigcactus_compare(const uint8_t *first, size_t first_len, const uint8_t *second, size_t second_len, int64_t offset);
uint64_t __wrap_rigcactus_print(const uint8_t *list, size_t list_len, uint8_t *record, size_t record_len);
uint64_t __wrap_rigcactus_totals_open(uint64_t table[RIGCACTUS_TABLE_NUMBERS]);
uint64_t __wrap_rigcactus_totals_start(uint64_t table[RIGCACTUS_TABLE_NUMBERS], uint64_t desk);
uint64_t __wrap_rigcactus_totals_add(uint64_t table[RIGCACTUS_TABLE_NUMBERS], uint64_t desk, const uint8_t *record, size_t record_len, int64_t offset);
uint64_t __wrap_rigcactus_totals_report(const uint64_t table[RIGCACTUS_TABLE_NUMBERS], uint64_t desk, uint64_t report[RIGCACTUS_REPORT_NUMBERS]);

static volatile uint8_t last_read;

/* Where the byte after a table is. A compiler that knew it would warn. */
static volatile size_t after_table = 8 * RIGCACTUS_TABLE_NUMBERS;

/* Whether a record has a text in it. */
static int has(const uint8_t *record, size_t record_len, const char *text)
{
    size_t length = strlen(text);
    for (size_t i = 0; i + length <= record_len; i++)
        if (memcmp(record + i, text, length) == 0)
            return 1;
    return 0;
}

static int planted(void)
{
    static int fault = -1;
    if (fault < 0)
        fault = getenv("PLANTED") ? atoi(getenv("PLANTED")) : 0;
    return fault;
}

uint64_t __wrap_rigcactus_cut(const uint8_t *text, size_t text_len, uint64_t room)
{
    uint64_t answer = __real_rigcactus_cut(text, text_len, room);
    size_t length = rigcactus_length(answer);

    switch (planted()) {
    case 1: return length > 4 ? answer - 256 : answer; /* a byte less is kept */
    case 2: last_read = text[text_len]; break;          /* a byte after the text is read */
    case 3: last_read = text[-1]; break;                /* a byte before it */
    case 4: return length == text_len ? answer : answer | room << 32; /* bits that an answer does not have */
    }
    return answer;
}

uint64_t __wrap_rigcactus_tick(const uint8_t *text, size_t text_len, int64_t offset, int64_t *tick)
{
    int64_t before = *tick;
    uint64_t answer = __real_rigcactus_tick(text, text_len, offset, tick);

    switch (planted()) {
    case 5: *tick += answer == RIGCACTUS_VALUE; break;                     /* written though it is refused */
    case 6: *tick += answer == 18 << 8 && text[17] == '9'; break;          /* a tick too many */
    case 7: last_read = ((uint8_t *)tick)[8]; break;                       /* a byte after the tick is read */
    case 8: *tick = answer == 4 << 8 ? before : *tick; break;              /* not written though it is accepted */
    case 9: last_read = text[text_len]; break;                             /* a byte after the text is read */
    case 10: last_read = text[-1]; break;                                  /* a byte before it */
    case 11: return text_len == 14 && text[13] == ':' ? 14 << 8 : answer;  /* the byte after 9 is taken for a digit */
    case 63: return answer == RIGCACTUS_DATE && text_len >= 10 ? RIGCACTUS_CLOCK : answer;
    case 64: return answer == RIGCACTUS_ZONE ? RIGCACTUS_VALUE : answer;
    case 65: return answer == RIGCACTUS_VALUE && has(text, text_len, "19000229") ? RIGCACTUS_DATE : answer; /* whatever the form */
    case 66: return answer == RIGCACTUS_CLOCK && has(text, text_len, "+15") ? RIGCACTUS_ZONE : answer; /* the last that applies */
    case 67: *tick += answer == RIGCACTUS_ZONE; break;                     /* written though it is refused */
    }
    return answer;
}

uint64_t __wrap_rigcactus_check(const uint8_t *record, size_t record_len, int64_t offset)
{
    uint64_t answer = __real_rigcactus_check(record, record_len, offset);

    switch (planted()) {
    case 12: return answer == RIGCACTUS_RULE ? RIGCACTUS_ACCEPTED : answer;
    case 13: return answer == RIGCACTUS_VALUE && record_len > 200 ? RIGCACTUS_SHAPE : answer;
    case 14: return answer == RIGCACTUS_ACCEPTED && record[record_len - 1] == '\n' ? RIGCACTUS_MARKUP : answer;
    case 68: return answer == RIGCACTUS_DATE && has(record, record_len, "nullFlavor") ? RIGCACTUS_RULE : answer;
    case 69: return answer == RIGCACTUS_DATE && has(record, record_len, "24\"/>") ? RIGCACTUS_CLOCK : answer;
    case 70: return answer == RIGCACTUS_VALUE && has(record, record_len, "20240230\"") ? RIGCACTUS_DATE : answer;
    case 71: return answer == RIGCACTUS_ZONE ? RIGCACTUS_VALUE : answer;
    case 72: return answer == RIGCACTUS_CLOCK ? RIGCACTUS_ACCEPTED : answer;
    case 79: return answer == RIGCACTUS_RULE && has(record, record_len, "<low value=\"20240501\"/><high value=\"20240430\"/>") ? RIGCACTUS_ACCEPTED : answer;
    case 80: return answer == RIGCACTUS_ACCEPTED && has(record, record_len, "<low value=\"20240430235959.9999\"/><high value=\"20240430\"/>") ? RIGCACTUS_RULE : answer;
    }
    return answer;
}

/* Moves a tick of a list, eight bytes, lowest first, by so many ticks. */
static void move_tick(uint8_t *tick, int64_t ticks)
{
    uint64_t number = 0;
    for (int i = 7; i >= 0; i--)
        number = number << 8 | tick[i];
    number += (uint64_t)ticks;
    for (int i = 0; i < 8; i++)
        tick[i] = (uint8_t)(number >> 8 * i);
}

/* Has a stretch end or begin otherwise where a bound of the record is coarser than a second. */
static void misread_bound(const uint8_t *record, size_t record_len, uint8_t *list)
{
    int is_leap_day = has(record, record_len, "<high value=\"20240229\"/>"), is_last = has(record, record_len, "<high value=\"9999\"/>");

    switch (planted()) {
    case 81: if (is_last && list[16] == RIGCACTUS_OPEN) move_tick(list + 24, -RIGCACTUS_TICKS_PER_DAY); break;  /* up to 31 December 9999 */
    case 82: if (is_leap_day && list[16] == RIGCACTUS_OPEN) move_tick(list + 24, RIGCACTUS_TICKS_PER_DAY); break; /* a day too many */
    case 83: if (has(record, record_len, "lowClosed=\"false\"") && list[0] == RIGCACTUS_CLOSED) list[0] = RIGCACTUS_OPEN; break;
    }
}

uint64_t __wrap_rigcactus_list(const uint8_t *record, size_t record_len, int64_t offset, uint8_t *list, size_t list_len)
{
    uint64_t answer = __real_rigcactus_list(record, record_len, offset, list, list_len);
    size_t count = rigcactus_count(answer);

    if (count > 0)
        misread_bound(record, record_len, list);
    switch (planted()) {
    case 15: if (answer == RIGCACTUS_NO_ROOM && list_len > 0) list[0] ^= 1; break;      /* written though it is refused */
    case 16: if (count > 0 && 32 * count < list_len) list[32 * count] ^= 1; break;      /* written past the stretches */
    case 17: return count > 1 ? answer - 256 : answer;                                  /* a stretch is left out */
    case 18: if (count > 0 && list[0] == RIGCACTUS_CLOSED) list[0] = RIGCACTUS_OPEN; break;
    case 19: return answer == RIGCACTUS_TOO_MANY ? RIGCACTUS_UNKNOWN_BOUND : answer;
    case 73: return answer == RIGCACTUS_CLOCK && list_len < 32 ? RIGCACTUS_NO_ROOM : answer;
    case 74: return answer == RIGCACTUS_DATE && !has(record, record_len, "<high") ? RIGCACTUS_UNKNOWN_BOUND : answer;
    case 75: return answer == RIGCACTUS_TYPE && has(record, record_len, "19000229") ? RIGCACTUS_DATE : answer;
    }
    return answer;
}

uint64_t __wrap_rigcactus_compare(const uint8_t *first, size_t first_len, const uint8_t *second, size_t second_len, int64_t offset)
{
    uint64_t answer = __real_rigcactus_compare(first, first_len, second, second_len, offset);

    switch (planted()) {
    case 20: return answer == RIGCACTUS_UNKNOWN << 16 ? RIGCACTUS_YES << 16 : answer;
    case 21: return rigcactus_refused_record(answer) == 2 ? answer - 256 : answer;      /* the first is named for the second */
    case 22: return answer == RIGCACTUS_NO << 16 && first_len > second_len ? RIGCACTUS_UNKNOWN << 16 : answer;
    case 76: return answer == (2 << 8 | RIGCACTUS_DATE) ? 2 << 8 | RIGCACTUS_TYPE : answer;
    case 77: return rigcactus_refusal(answer) == RIGCACTUS_ZONE ? answer - RIGCACTUS_ZONE + RIGCACTUS_VALUE : answer;
    case 84: return answer == RIGCACTUS_NO << 16 && has(first, first_len, "20240430") && has(second, second_len, "20240501") ? RIGCACTUS_YES << 16 : answer;
    }
    return answer;
}

uint64_t __wrap_rigcactus_print(const uint8_t *list, size_t list_len, uint8_t *record, size_t record_len)
{
    uint64_t answer = __real_rigcactus_print(list, list_len, record, record_len);
    size_t length = rigcactus_length(answer);

    switch (planted()) {
    case 23: if (answer == RIGCACTUS_NO_ROOM && record_len > 0) record[0] = '<'; break;        /* written though it is refused */
    case 24: if (length > 0 && length < record_len) record[length] ^= 1; break;                /* written past the record */
    case 25: return answer == RIGCACTUS_NOT_WRITABLE && record_len == 0 ? RIGCACTUS_NO_ROOM : answer;
    case 26: if (length > 0 && list_len == 0) record[115] = record[155] = '1'; break;          /* another time for no stretch */
    case 27: last_read = list[list_len]; break;                                                /* a byte after the list is read */
    }
    return answer;
}

uint64_t __wrap_rigcactus_totals_open(uint64_t table[RIGCACTUS_TABLE_NUMBERS])
{
    uint64_t last = table[102], answer = __real_rigcactus_totals_open(table);

    if (planted() == 28)
        table[102] = last; /* the last number is left as it was */
    return answer;
}

/* Exchanges two rows of a table. */
static void exchange(uint64_t *first, uint64_t *second)
{
    uint64_t kept[3];
    memcpy(kept, first, sizeof kept);
    memcpy(first, second, sizeof kept);
    memcpy(second, kept, sizeof kept);
}

uint64_t __wrap_rigcactus_totals_start(uint64_t table[RIGCACTUS_TABLE_NUMBERS], uint64_t desk)
{
    uint64_t before[RIGCACTUS_TABLE_NUMBERS];
    memcpy(before, table, sizeof before);
    uint64_t answer = __real_rigcactus_totals_start(table, desk);
    int moved = answer == 0 && table[0] < before[0] && before[7] == desk;

    switch (planted()) {
    case 29: if (answer == 0) memcpy(table + 1, before + 1, 48); break;                        /* the counts stay */
    case 30: if (answer == 0) memset(table + 1, 0, 48); break;                                 /* the other desk's counts are 0 too */
    case 31: if (moved && table[0] > 1) exchange(table + 7, table + 10); break;                /* rows that move up change their order */
    case 32: if (moved) memset(table + 7 + 3 * table[0], 0, 24); break;                        /* a row that is freed is cleared */
    case 33: if (moved) table[0] = before[0]; break;                                           /* as many rows are held as before */
    case 34: if (answer == RIGCACTUS_DAMAGED) table[1] = table[4] = 0; break;                  /* written though it is refused */
    case 35: if (moved && table[0] > 0) memcpy(table + 7, before + 7, 24); break;              /* the first row does not move up */
    case 36: return answer == RIGCACTUS_NO_DESK && before[0] > 32 ? RIGCACTUS_DAMAGED : answer;
    case 37: last_read = ((uint8_t *)table)[after_table]; break;                               /* a byte after the table is read */
    }
    return answer;
}

/* The row whose total changed, or that was added; the last one if there is none. */
static size_t changed_row(const uint64_t *before, const uint64_t *table)
{
    size_t row = 0;
    while (row < 31 && before[9 + 3 * row] == table[9 + 3 * row])
        row++;
    return row;
}

/* What a record comes to, with faults that one desk alone could have. */
static uint64_t with_fault_of_one(uint64_t *table, const uint64_t *before, uint64_t *counts, const uint8_t *record, size_t record_len, uint64_t answer)
{
    size_t row = changed_row(before, table);
    uint64_t *total = &table[9 + 3 * row], total_before = before[9 + 3 * row];
    int added = rigcactus_entry(answer) == RIGCACTUS_ADDED, null = rigcactus_entry(answer) == RIGCACTUS_NULL;

    switch (planted()) {
    case 38: counts[2] -= answer == RIGCACTUS_OFFSET; break;                                   /* not counted */
    case 39: counts[2] += answer == RIGCACTUS_DAMAGED; break;                                  /* counted though it may not be */
    case 40: counts[2] += answer == RIGCACTUS_DAY_FULL; break;
    case 41: if (null) counts[1]--, counts[0]++; break;                                        /* counted as added */
    case 42: if (added) *total += *total - total_before; break;                                /* added once more */
    case 43: if (added && *total == 0) table[0]--; break;                                      /* a row that comes to zero is dropped */
    case 44: if (added && table[0] < 32) table[102] = 0; break;                                /* a row past those held is changed */
    case 45: return answer == RIGCACTUS_NO_ROW ? RIGCACTUS_TOTAL : answer;
    case 46: if (answer == RIGCACTUS_TOTAL) table[9] = (uint64_t)RIGCACTUS_MOST_TOTAL; break;  /* kept at the end of the range */
    case 47: last_read = ((uint8_t *)table)[after_table]; break;                               /* a byte after the table is read */
    case 48: last_read = record[record_len]; break;                                            /* a byte after the record */
    }
    return answer;
}

/* The same with faults that take one desk for the other. */
static uint64_t with_fault_of_two(uint64_t *table, const uint64_t *before, uint64_t desk, uint64_t answer)
{
    size_t row = changed_row(before, table);
    int added = rigcactus_entry(answer) == RIGCACTUS_ADDED, is_new = added && table[0] > before[0];
    const uint64_t *others = before + 7 - 3 * desk;

    switch (planted()) {
    case 49: if (answer == RIGCACTUS_VALUE) table[3 * desk]--, table[9 - 3 * desk]++; break;   /* the other desk's count */
    case 50: if (added) table[7 + 3 * row] = 3 - desk; break;                                  /* the row becomes the other desk's */
    case 51: if (is_new && table[0] > 16) memcpy(table, before, 8 * RIGCACTUS_TABLE_NUMBERS); break; /* 16 rows for both together */
    case 52: return added && others[0] + others[1] + others[2] == RIGCACTUS_MOST_COUNTED ? RIGCACTUS_DAY_FULL : answer;
    case 53: if (is_new && row > 0) exchange(table + 7, table + 7 + 3 * row); break;           /* a new row comes first */
    }
    return answer;
}

uint64_t __wrap_rigcactus_totals_add(uint64_t table[RIGCACTUS_TABLE_NUMBERS], uint64_t desk, const uint8_t *record, size_t record_len, int64_t offset)
{
    uint64_t before[RIGCACTUS_TABLE_NUMBERS];
    memcpy(before, table, sizeof before);
    uint64_t answer = __real_rigcactus_totals_add(table, desk, record, record_len, offset);

    if (planted() == 78 && answer == RIGCACTUS_TYPE && has(record, record_len, "19000229"))
        return RIGCACTUS_DATE; /* an impossible time of another type is told */
    if (answer != RIGCACTUS_NO_DESK) {
        answer = with_fault_of_one(table, before, table + 3 * desk - 2, record, record_len, answer);
        return with_fault_of_two(table, before, desk, answer);
    }
    switch (planted()) {
    case 54: table[3]++; break;                                                                /* a record of no desk is counted */
    case 55: return before[0] > 32 ? RIGCACTUS_DAMAGED : answer;                               /* DAMAGED before NO DESK */
    case 56: return desk > 3 ? __real_rigcactus_totals_add(table, desk & 3, record, record_len, offset) : answer; /* its lowest bits alone */
    }
    return answer;
}

uint64_t __wrap_rigcactus_totals_report(const uint64_t table[RIGCACTUS_TABLE_NUMBERS], uint64_t desk, uint64_t report[RIGCACTUS_REPORT_NUMBERS])
{
    uint64_t answer = __real_rigcactus_totals_report(table, desk, report);

    switch (planted()) {
    case 57: if (rigcactus_count(answer) < 16) report[34] = table[102]; break;                 /* written past the rows */
    case 58: if (answer == RIGCACTUS_DAMAGED) report[0] = 0; break;                            /* written though it is refused */
    case 59: if (rigcactus_count(answer) == 2) report[4] ^= report[6], report[6] ^= report[4], report[4] ^= report[6]; break; /* totals in another order */
    case 60: if (rigcactus_refusal(answer) == 0) report[0] = table[7 - 3 * desk]; break;       /* the other desk's count */
    case 61: return rigcactus_refusal(answer) == 0 ? table[0] << 8 : answer;                   /* the rows of both */
    case 62: return answer == RIGCACTUS_NO_DESK ? RIGCACTUS_DAMAGED : answer;
    }
    return answer;
}
