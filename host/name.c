#include "name.h"

#include "words.h"

/* What of a part decides on the space beside it. */
struct edges {
    bool joins_before;  /* no space goes before the part */
    bool joins_after;   /* no space goes after the part */
};

static struct edges edges_of(struct slice part)
{
    struct slice type, qualifier;
    find_attribute(part, "type", &type);
    find_attribute(part, "qualifier", &qualifier);
    bool is_delimiter = slice_is(type, "DEL");
    return (struct edges){is_delimiter || slice_has_word(qualifier, "SFX"), is_delimiter || slice_has_word(qualifier, "PFX")};
}

/* Adds the text of a part, or the words for its null flavor. */
static void add_part(struct text *text, struct slice part)
{
    uint8_t printed[RIGCACTUS_MOST_BYTES];
    struct slice value;
    if (find_attribute(part, "nullFlavor", &value))
        add(text, "[%s]", null_flavor_words(value));
    else if (find_attribute(part, "value", &value) && value.length <= sizeof printed)
        add_bytes(text, printed, decode_for_print(value, printed));
}

static bool ends_in_space(const struct text *text)
{
    return text->length > 0 && text->bytes[text->length - 1] == ' ';
}

static bool begins_with_space(struct slice part)
{
    struct slice value;
    return find_attribute(part, "value", &value) && value.length > 0 && value.bytes[0] == ' ';
}

void add_name(struct text *text, struct slice record)
{
    struct slice part;
    take_tag(&record, &part); /* the top element: all others are parts */
    bool joins = true;
    while (take_tag(&record, &part)) {
        struct edges edges = edges_of(part);
        if (!joins && !edges.joins_before && !ends_in_space(text) && !begins_with_space(part))
            add(text, " ");
        add_part(text, part);
        joins = edges.joins_after;
    }
}
