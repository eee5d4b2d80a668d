#include "totals_expat.h"

#include <expat.h>
#include <stdlib.h>
#include <string.h>

/* An amount as the handler finds it: the texts are those that expat lends to the handler, so it is added there. */
struct target {
    struct expat_day *day;
    bool added;
};

static XML_Parser parser;

static bool add(struct expat_day *day, const char *currency, double amount)
{
    size_t i = 0;
    while (i < day->count && strcmp(day->sums[i].currency, currency) != 0)
        i++;
    if (i == day->count) {
        if (i == MOST_SUMS || strlen(currency) != 3)
            return false;
        memcpy(day->sums[i].currency, currency, 4);
        day->sums[i].sum = 0;
        day->count++;
    }
    day->sums[i].sum += amount;
    day->added++;
    return true;
}

static void start_element(void *data, const XML_Char *name, const XML_Char **attributes)
{
    struct target *target = data;
    const char *value = NULL, *currency = NULL;
    bool money = false;
    (void)name;
    for (; *attributes != NULL; attributes += 2) {
        if (strcmp(attributes[0], "xsi:type") == 0)
            money = strcmp(attributes[1], "MO") == 0;
        else if (strcmp(attributes[0], "value") == 0)
            value = attributes[1];
        else if (strcmp(attributes[0], "currency") == 0)
            currency = attributes[1];
    }
    if (money && value != NULL && currency != NULL)
        target->added = add(target->day, currency, strtod(value, NULL));
}

bool expat_begin(void)
{
    parser = XML_ParserCreate("UTF-8");
    return parser != NULL;
}

bool expat_add(struct expat_day *day, const char *record, size_t length)
{
    struct target target = {day, false};
    XML_ParserReset(parser, "UTF-8");
    XML_SetUserData(parser, &target);
    XML_SetStartElementHandler(parser, start_element);
    return XML_Parse(parser, record, (int)length, XML_TRUE) == XML_STATUS_OK && target.added;
}
