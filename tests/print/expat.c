/*
 * Has expat read the records that rigcactus_print writes, and compares what it tells with the list.
 *
 *     expat [CASES [SEED]]     CASES lists (100000), of 0 to 32 stretches, are made from SEED (1)
 *
 * Expat looks at no namespaces here, since a record declares none. It is to tell of an element `stay` with its type; in it of a `term` for
 * each stretch, in order, with its type and then the flags of the bounds that it has; in each of these of `low` and then of `high`, with
 * the time of the bound or the null flavor of an unbounded one; and of nothing else, no text either. No stretch is one term, both its
 * bounds open at the first tick. Times become ticks again by glibc's timegm. The exit status is 1 where a record is another.
 */
#define _DEFAULT_SOURCE
#include "rigcactus.h"

#include <expat.h>
#include <stdbool.h>
#include <stdio.h>
#include <stdlib.h>
#include <string.h>
#include <time.h>

/* The last tick of year 9999, and the tick of 1970-01-01 00:00 UTC, where time_t begins. */
static const int64_t LAST_TICK = 3155378975999999, UNIX_START = 621355968000000;

/* ---- numbers that look random and are the same in every run */

static uint64_t state;

static int64_t below(int64_t end)
{
    uint64_t number = 0;
    for (int i = 0; i < 3; i++) {
        state = state * UINT64_C(6364136223846793005) + UINT64_C(1442695040888963407);
        number = number << 22 ^ state >> 40;
    }
    return (int64_t)(number >> 1) % end;
}

/* ---- lists */

static uint8_t list[RIGCACTUS_MOST_LIST_BYTES];
static size_t count;

static void write_bound(size_t index, int kind, int64_t tick)
{
    uint64_t numbers[2] = {(uint64_t)kind, (uint64_t)tick};
    for (size_t i = 0; i < 16; i++)
        list[8 * index + i] = (uint8_t)(numbers[i / 8] >> 8 * (i % 8));
}

/* A place is twice a tick's number, and one more for the gap after it. Stretches lie a place or more apart, by chance over all years. */
static void make_list(void)
{
    count = (size_t)below(33);
    int64_t room = 2 * LAST_TICK + 1, at = 0;
    int64_t spread = below(2) ? 1 + below(4) : room / (2 * (int64_t)count + 2);
    if (below(4))
        at = below(room - (int64_t)count * (2 * spread + 2));
    for (size_t i = 0; i < count; i++) {
        int64_t first = at, last = first + below(spread);
        write_bound(4 * i, 2 - first % 2, first / 2);
        write_bound(4 * i + 2, 2 - last % 2, (last + 1) / 2);
        at = last + 2 + below(spread);
    }
    if (count > 0 && below(4) == 0)
        write_bound(0, RIGCACTUS_UNBOUNDED, 0);
    if (count > 0 && below(4) == 0)
        write_bound(4 * count - 2, RIGCACTUS_UNBOUNDED, 0);
}

/* ---- what is to be told, a line for each tag */

enum { MOST = 32768 };

struct story {
    char text[MOST];
    size_t length;
};

static struct story due, told;

static void add(struct story *story, const char *what)
{
    size_t n = strlen(what);
    if (story->length + n >= MOST)
        abort();
    memcpy(story->text + story->length, what, n + 1);
    story->length += n;
}

static void add_tick(struct story *story, int64_t tick)
{
    char text[32];
    snprintf(text, sizeof text, " value=tick %lld", (long long)tick);
    add(story, text);
}

static void add_due_flag(const char *name, int kind)
{
    if (kind == RIGCACTUS_UNBOUNDED)
        return;
    add(&due, name);
    add(&due, kind == RIGCACTUS_CLOSED ? "true" : "false");
}

static void add_due_bound(const char *name, const char *flavor, int kind, int64_t tick)
{
    add(&due, "<");
    add(&due, name);
    if (kind == RIGCACTUS_UNBOUNDED)
        add(&due, flavor);
    else
        add_tick(&due, tick);
    add(&due, "\n/");
    add(&due, name);
    add(&due, "\n");
}

static void add_due_term(struct rigcactus_stretch stretch)
{
    add(&due, "<term xsi:type=IVL_TS");
    add_due_flag(" lowClosed=", stretch.low_kind);
    add_due_flag(" highClosed=", stretch.high_kind);
    add(&due, "\n");
    add_due_bound("low", " nullFlavor=NINF", stretch.low_kind, stretch.low_tick);
    add_due_bound("high", " nullFlavor=PINF", stretch.high_kind, stretch.high_tick);
    add(&due, "/term\n");
}

static void tell_due(void)
{
    due.length = 0;
    add(&due, "<stay xsi:type=QSU_TS\n");
    for (size_t i = 0; i < count; i++)
        add_due_term(rigcactus_stretch_at(list, i));
    if (count == 0)
        add_due_term((struct rigcactus_stretch){RIGCACTUS_OPEN, 0, RIGCACTUS_OPEN, 0});
    add(&due, "/stay\n");
}

/* ---- what expat tells */

/* The tick of a full timestamp with four digits of a fraction and +0000; one that none has for any other text. */
static int64_t tick_of(const char *text)
{
    struct tm parts = {0};
    int fraction = 0;
    char again[128];

    sscanf(text, "%4d%2d%2d%2d%2d%2d.%4d", &parts.tm_year, &parts.tm_mon, &parts.tm_mday, &parts.tm_hour, &parts.tm_min, &parts.tm_sec, &fraction);
    parts.tm_year -= 1900;
    parts.tm_mon -= 1;
    /* timegm turns what there is not, as 30 February, into another time, which is then written in another way. */
    time_t seconds = timegm(&parts);
    snprintf(again, sizeof again, "%04d%02d%02d%02d%02d%02d.%04d+0000", parts.tm_year + 1900, parts.tm_mon + 1, parts.tm_mday, parts.tm_hour,
             parts.tm_min, parts.tm_sec, fraction);
    return strcmp(again, text) == 0 ? seconds * RIGCACTUS_TICKS_PER_SECOND + fraction + UNIX_START : INT64_MIN;
}

static void on_start(void *data, const XML_Char *name, const XML_Char **attributes)
{
    (void)data;
    add(&told, "<");
    add(&told, name);
    for (int i = 0; attributes[i] != NULL; i += 2) {
        if (strcmp(attributes[i], "value") == 0) {
            add_tick(&told, tick_of(attributes[i + 1]));
            continue;
        }
        add(&told, " ");
        add(&told, attributes[i]);
        add(&told, "=");
        add(&told, attributes[i + 1]);
    }
    add(&told, "\n");
}

static void on_end(void *data, const XML_Char *name)
{
    (void)data;
    add(&told, "/");
    add(&told, name);
    add(&told, "\n");
}

/* All that is no tag. */
static void on_other(void *data, const XML_Char *what, int n)
{
    (void)data, (void)what;
    if (n > 0)
        add(&told, "something else\n");
}

static bool expat_tells(XML_Parser parser, const uint8_t *record, size_t length)
{
    told.length = 0;
    XML_ParserReset(parser, "UTF-8");
    XML_SetElementHandler(parser, on_start, on_end);
    XML_SetDefaultHandler(parser, on_other);
    return XML_Parse(parser, (const char *)record, (int)length, XML_TRUE) == XML_STATUS_OK;
}

/* ---- the comparison */

/* Whether the list is printed, and expat tells of it what is due. */
static bool is_told(XML_Parser parser)
{
    static uint8_t record[8192];
    uint64_t answer = rigcactus_print(list, count * RIGCACTUS_STRETCH_BYTES, record, sizeof record);
    size_t length = rigcactus_length(answer);

    tell_due();
    if (rigcactus_refusal(answer) == RIGCACTUS_ACCEPTED && expat_tells(parser, record, length) && strcmp(due.text, told.text) == 0)
        return true;
    printf("answered %llu: %.*s\n", (unsigned long long)answer, (int)length, (const char *)record);
    printf("expat tells\n%sand due is\n%s", told.text, due.text);
    return false;
}

int main(int argc, char **argv)
{
    uint64_t cases = argc > 1 ? strtoull(argv[1], NULL, 10) : 100000, stretches = 0;
    state = argc > 2 ? strtoull(argv[2], NULL, 10) : 1;
    XML_Parser parser = XML_ParserCreate("UTF-8");
    for (uint64_t k = 0; k < cases; k++) {
        make_list();
        if (!is_told(parser))
            return 1;
        stretches += count;
    }
    printf("%llu lists, %llu stretches: expat tells of each what is due\n", (unsigned long long)cases, (unsigned long long)stretches);
    return 0;
}
