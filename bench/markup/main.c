/*
 * Whether a text is a document: markup::is_document beside expat's bare parse, with no handlers, of the same bytes.
 *
 *     markup                            times both sides on every text, in one run, and prints the ratios
 *     markup SIDE KIND LENGTH TIMES     runs one side alone, TIMES over one text: SIDE is rigcactus or expat, KIND one of the table's
 *                                       (for counting instructions)
 *
 * A parser of expat's is made once and reset for each text, which is the quickest way to use it.
 */
#define _POSIX_C_SOURCE 200809L
#include <expat.h>
#include <stdbool.h>
#include <stdint.h>
#include <stdio.h>
#include <stdlib.h>
#include <string.h>
#include <time.h>

uint64_t markup_bench_is_document(const uint8_t *text, size_t length);

enum { MOST = 16384, ROUNDS = 200 };

struct text {
    size_t length;
    char bytes[MOST];
};

static void add(struct text *to, const char *what)
{
    size_t n = strlen(what);
    if (to->length + n > MOST)
        abort();
    memcpy(to->bytes + to->length, what, n);
    to->length += n;
}

/* Pieces again and again between a beginning and an end, up to a length; then white space up to it. */
static void repeat(struct text *to, size_t length, const char *begin, const char *const *pieces, size_t count, const char *end)
{
    to->length = 0;
    add(to, begin);
    for (size_t k = 0; to->length + strlen(pieces[k % count]) + strlen(end) <= length; k++)
        add(to, pieces[k % count]);
    add(to, end);
    while (to->length < length)
        add(to, "\n");
}

/* A set of stays, as a clinic would write it. */
static void make_times(struct text *to, size_t length)
{
    static const char *const pieces[] = {
        "<term xsi:type=\"IVL_TS\" lowClosed=\"true\" highClosed=\"false\"><low value=\"20240501\"/><high value=\"20240504\"/></term>",
        "<term xsi:type=\"IVL_TS\" lowClosed=\"true\" highClosed=\"true\">\n  <low value=\"2024050212\"/>\n  <high value=\"202405021830+0200\"/>\n</term>\n",
    };
    repeat(to, length, "<stay xsi:type=\"QSU_TS\">", pieces, 2, "</stay>");
}

/* A name of many parts, with letters beyond ASCII and references. */
static void make_names(struct text *to, size_t length)
{
    static const char *const pieces[] = {
        "<part type=\"GIV\" value=\"Zo\303\253\"/>",
        "<part type=\"FAM\" value=\"M\303\274ller &amp; S\303\266hne\" qualifier=\"BR SP\"/>",
        "<part value=\"\345\274\240\344\274\237\"/>",
    };
    repeat(to, length, "<guest xsi:type=\"EN\">", pieces, 3, "</guest>");
}

/* Tags and nothing else: the most work for a byte. */
static void make_tags(struct text *to, size_t length)
{
    static const char *const pieces[] = {"<b/>", "<c></c>"};
    repeat(to, length, "<a>", pieces, 2, "</a>");
}

/* One long value: the least work for a byte. */
static void make_value(struct text *to, size_t length)
{
    static const char *const pieces[] = {"a text of some length, "};
    repeat(to, length, "<a b=\"", pieces, 1, "\"/>");
}

/* One tag with so many attributes. */
static void make_attributes(struct text *to, int count)
{
    char made[32];
    to->length = 0;
    add(to, "<a");
    for (int k = 0; k < count; k++) {
        snprintf(made, sizeof made, " n%04d=\"\"", k);
        add(to, made);
    }
    add(to, "/>");
}

/* One tag with as many attributes as there is room for, of names of one byte and of two. Returned is how many they are. */
static int make_most_attributes(struct text *to)
{
    static const char letters[] = "abcdefghijklmnopqrstuvwxyzABCDEFGHIJKLMNOPQRSTUVWXYZ_0123456789.-:";
    const size_t starts = 53, others = sizeof letters - 1;
    char made[32];
    int count = 0;
    to->length = 0;
    add(to, "<a");
    for (size_t k = 0; k < starts; k++, count++) {
        snprintf(made, sizeof made, " %c=\"\"", letters[k]);
        add(to, made);
    }
    for (size_t k = 0; to->length + strlen(" ab=\"\"/>") <= MOST; k++, count++) {
        snprintf(made, sizeof made, " %c%c=\"\"", letters[k / others], letters[k % others]);
        add(to, made);
    }
    add(to, "/>");
    return count;
}

struct kind {
    const char *name;
    void (*make)(struct text *, size_t);
};

static const struct kind kinds[] = {{"times", make_times}, {"names", make_names}, {"tags", make_tags}, {"value", make_value}};
static const size_t lengths[] = {200, 2048, 16384};
static const int counts[] = {1, 4, 16, 64, 256, 1024, 1638};

typedef bool side(const struct text *);

static bool rigcactus(const struct text *t)
{
    return markup_bench_is_document((const uint8_t *)t->bytes, t->length) == 1;
}

static bool expat(const struct text *t)
{
    static XML_Parser parser;
    if (parser == NULL)
        parser = XML_ParserCreate("UTF-8");
    else
        XML_ParserReset(parser, "UTF-8");
    return XML_Parse(parser, t->bytes, (int)t->length, XML_TRUE) == XML_STATUS_OK;
}

/* Nanoseconds of a call, in a round of so many. */
static double round_time(side *run, const struct text *t, int calls)
{
    static volatile int kept;
    struct timespec start, end;
    clock_gettime(CLOCK_MONOTONIC, &start);
    for (int k = 0; k < calls; k++)
        kept = run(t);
    clock_gettime(CLOCK_MONOTONIC, &end);
    (void)kept;
    return ((double)(end.tv_sec - start.tv_sec) * 1e9 + (double)(end.tv_nsec - start.tv_nsec)) / calls;
}

/* How many calls make a round of some 200 microseconds. */
static int calls_of(side *run, const struct text *t)
{
    return 1 + (int)(200000 / round_time(run, t, 1));
}

/* The best round of each side, in turn. */
static void compare(const char *name, const struct text *t)
{
    if (!rigcactus(t) || !expat(t)) {
        printf("%s: refused\n", name);
        exit(1);
    }
    int our_calls = calls_of(rigcactus, t), their_calls = calls_of(expat, t);
    double ours = 1e18, theirs = 1e18;
    for (int i = 0; i < ROUNDS; i++) {
        double time = round_time(rigcactus, t, our_calls);
        ours = time < ours ? time : ours;
        time = round_time(expat, t, their_calls);
        theirs = time < theirs ? time : theirs;
    }
    printf("%-12s%8zu%12.0f ns%12.0f ns%8.2f%16.2f\n", name, t->length, ours, theirs, ours / theirs, ours / (double)t->length);
}

static int run_one(char **words)
{
    static struct text t;
    side *run = strcmp(words[0], "rigcactus") == 0 ? rigcactus : strcmp(words[0], "expat") == 0 ? expat : NULL;
    for (size_t k = 0; run != NULL && k < sizeof kinds / sizeof kinds[0]; k++) {
        if (strcmp(words[1], kinds[k].name) == 0) {
            kinds[k].make(&t, strtoul(words[2], NULL, 10));
            round_time(run, &t, atoi(words[3]));
            return 0;
        }
    }
    return 2;
}

int main(int argc, char **argv)
{
    static struct text t;
    if (argc == 5)
        return run_one(argv + 1);
    if (argc != 1) {
        fputs("usage: markup [rigcactus|expat KIND LENGTH TIMES]\n", stderr);
        return 2;
    }
    printf("%-12s%8s%15s%15s%8s%16s\n", "text", "bytes", "rigcactus", "expat", "ratio", "ns a byte");
    for (size_t k = 0; k < sizeof kinds / sizeof kinds[0]; k++) {
        for (size_t n = 0; n < sizeof lengths / sizeof lengths[0]; n++) {
            kinds[k].make(&t, lengths[n]);
            compare(kinds[k].name, &t);
        }
    }
    char name[32];
    for (size_t n = 0; n < sizeof counts / sizeof counts[0]; n++) {
        snprintf(name, sizeof name, "%d attr.", counts[n]);
        make_attributes(&t, counts[n]);
        compare(name, &t);
    }
    snprintf(name, sizeof name, "%d attr.", make_most_attributes(&t));
    compare(name, &t);
    return 0;
}
