#include "compare_expat.h"

#include "rigcactus.h"

#include <expat.h>
#include <stdlib.h>
#include <string.h>

/* The attributes that count. */
enum attribute { XSI_TYPE, NULL_FLAVOR, VALUE, CURRENCY, ROOT, EXTENSION, CODE, CODE_SYSTEM, TYPE, LOW_CLOSED, HIGH_CLOSED, ATTRIBUTES };

static const char *const attribute_names[ATTRIBUTES] = {
    "xsi:type", "nullFlavor", "value", "currency", "root", "extension", "code", "codeSystem", "type", "lowClosed", "highClosed",
};

/* An element of the shortest form takes four bytes. */
enum { MOST_ELEMENTS = RIGCACTUS_MOST_BYTES / 4 };

/* What is kept of an element: a text that is kept by the values it belongs to, or null for an attribute that it has not. */
struct element {
    const char *name;
    const char *attributes[ATTRIBUTES];
};

/* What is kept of a record. Decoded texts and their zero bytes are never longer than the record. */
struct values {
    struct element elements[MOST_ELEMENTS];
    size_t count;
    char texts[RIGCACTUS_MOST_BYTES];
    size_t used;
};

static XML_Parser parser;
static struct values values[2];

static const char *keep(struct values *to, const char *text)
{
    size_t size = strlen(text) + 1;
    if (size > sizeof to->texts - to->used)
        return NULL;
    char *kept = memcpy(to->texts + to->used, text, size);
    to->used += size;
    return kept;
}

static void keep_attribute(struct values *to, struct element *element, const char *name, const char *value)
{
    for (int i = 0; i < ATTRIBUTES; i++) {
        if (strcmp(name, attribute_names[i]) == 0) {
            element->attributes[i] = keep(to, value);
            return;
        }
    }
}

static void start_element(void *data, const XML_Char *name, const XML_Char **attributes)
{
    struct values *to = data;
    struct element *element = &to->elements[to->count++];
    memset(element, 0, sizeof *element);
    element->name = keep(to, name);
    for (; *attributes != NULL; attributes += 2)
        keep_attribute(to, element, attributes[0], attributes[1]);
}

static bool read_values(struct values *to, const char *record, size_t length)
{
    to->count = 0;
    to->used = 0;
    XML_ParserReset(parser, "UTF-8");
    XML_SetUserData(parser, to);
    XML_SetStartElementHandler(parser, start_element);
    return length <= RIGCACTUS_MOST_BYTES && XML_Parse(parser, record, (int)length, XML_TRUE) == XML_STATUS_OK;
}

/* Whether texts are the same, or both are missing. */
static bool same(const char *first, const char *second)
{
    if (first == NULL || second == NULL)
        return first == second;
    return strcmp(first, second) == 0;
}

/* An amount is a number, so that 12.5 is 12.50. */
static bool same_amount(const char *first, const char *second)
{
    return first != NULL && second != NULL && strtod(first, NULL) == strtod(second, NULL);
}

static bool same_element(const struct element *first, const struct element *second, bool money)
{
    for (int i = VALUE; i < ATTRIBUTES; i++) {
        const char *one = first->attributes[i], *other = second->attributes[i];
        if (!(money && i == VALUE ? same_amount(one, other) : same(one, other)))
            return false;
    }
    return true;
}

/* A null element makes what is not known to differ unknown. */
static int compare_elements(const struct values *first, const struct values *second, bool money)
{
    int comparison = RIGCACTUS_YES;
    for (size_t i = 0; i < first->count; i++) {
        const struct element *one = &first->elements[i], *other = &second->elements[i];
        if (one->attributes[NULL_FLAVOR] != NULL || other->attributes[NULL_FLAVOR] != NULL)
            comparison = RIGCACTUS_UNKNOWN;
        else if ((i > 0 && !same(one->name, other->name)) || !same_element(one, other, money))
            return RIGCACTUS_NO;
    }
    return comparison;
}

bool expat_begin(void)
{
    parser = XML_ParserCreate("UTF-8");
    return parser != NULL;
}

int expat_compare(const char *first, size_t first_length, const char *second, size_t second_length)
{
    if (!read_values(&values[0], first, first_length) || !read_values(&values[1], second, second_length))
        return 0;
    const char *type = values[0].elements[0].attributes[XSI_TYPE];
    if (type == NULL || !same(type, values[1].elements[0].attributes[XSI_TYPE]))
        return 0;
    if (values[0].count != values[1].count)
        return RIGCACTUS_NO;
    return compare_elements(&values[0], &values[1], strcmp(type, "MO") == 0);
}
