/*
 * Checking a record: rigcactus_check beside expat's bare parse, with no handlers, which judges nothing but the markup. sides.h says how it
 * is run.
 */
#define _POSIX_C_SOURCE 199309L
#include "records.h"

#include <expat.h>

static const struct record_set sets[] = {
    {"money", 100, "<deposit xsi:type=\"MO\" value=\"1%02d.%02d\" currency=\"EUR\"/>", {"", ""}, ""},
    NAME(100), NAME(200), NAME(500), NAME(1000), NAME(2000), NAME(4000), NAME(8000), NAME(16000),
    TIMES(200), TIMES(500), TIMES(1000), TIMES(2000), TIMES(4000), TIMES(8000), TIMES(16000),
};

static XML_Parser parser;
static struct record records[MOST_RECORDS];

/* Each side says whether a record is accepted. */
static int64_t rigcactus(size_t i)
{
    return rigcactus_check((const uint8_t *)records[i].bytes, records[i].length, 0) == RIGCACTUS_ACCEPTED;
}

/* One parser is used again and again, as a host would do that reads many records. */
static int64_t expat(size_t i)
{
    XML_ParserReset(parser, "UTF-8");
    return XML_Parse(parser, records[i].bytes, (int)records[i].length, XML_TRUE) == XML_STATUS_OK;
}

static const char *set_name(size_t set)
{
    return sets[set].name;
}

static size_t prepare(size_t set)
{
    size_t count = record_count(&sets[set]);
    for (size_t i = 0; i < count; i++) {
        make_record(&sets[set], &records[i]);
        if (!rigcactus(i) || !expat(i))
            return 0;
    }
    return count;
}

static size_t bytes(void)
{
    return records[0].length;
}

int main(int argc, char **argv)
{
    static const struct side sides[] = {{"rigcactus", rigcactus}, {"expat", expat}};
    const struct bench bench = {sides, 2, sizeof sets / sizeof sets[0], set_name, prepare, bytes};
    parser = XML_ParserCreate("UTF-8");
    return parser == NULL ? 3 : bench_main(&bench, argc, argv);
}
