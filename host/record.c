#include "record.h"

#include <string.h>

#define WHITE_SPACE " \t\r\n"

/* ---- Slices ------------------------------------------------------------------------------------------------------- */

static bool is_one_of(uint8_t byte, const char *letters)
{
    return memchr(letters, byte, strlen(letters)) != NULL;
}

struct slice take(struct slice *rest, size_t length)
{
    struct slice taken = {rest->bytes, length < rest->length ? length : rest->length};
    rest->bytes += taken.length;
    rest->length -= taken.length;
    return taken;
}

struct slice take_until(struct slice *rest, const char *letters)
{
    size_t length = 0;
    while (length < rest->length && !is_one_of(rest->bytes[length], letters))
        length++;
    return take(rest, length);
}

/* Takes the bytes before the first that is none of these letters. */
static struct slice take_while(struct slice *rest, const char *letters)
{
    size_t length = 0;
    while (length < rest->length && is_one_of(rest->bytes[length], letters))
        length++;
    return take(rest, length);
}

static bool starts_with(struct slice slice, const char *letters)
{
    size_t length = strlen(letters);
    return slice.length >= length && memcmp(slice.bytes, letters, length) == 0;
}

bool slice_is(struct slice value, const char *letters)
{
    return value.length == strlen(letters) && starts_with(value, letters);
}

bool slice_has_word(struct slice value, const char *letters)
{
    while (value.length > 0) {
        if (slice_is(take_until(&value, " "), letters))
            return true;
        take(&value, 1);
    }
    return false;
}

/* ---- Tags and attributes ------------------------------------------------------------------------------------------ */

bool take_tag(struct slice *rest, struct slice *tag)
{
    do {
        take_until(rest, "<");
        if (take(rest, 1).length == 0)
            return false;
        *tag = take_until(rest, "<");
    } while (starts_with(*tag, "/"));
    return true;
}

/* Takes an attribute from the front of what is left of a tag. Gives false back at the tag's end. */
static bool take_attribute(struct slice *rest, struct slice *name, struct slice *value)
{
    take_while(rest, WHITE_SPACE);
    *name = take_until(rest, WHITE_SPACE "=/>");
    if (name->length == 0)
        return false;
    take_until(rest, "\"");
    take(rest, 1);
    *value = take_until(rest, "\"");
    take(rest, 1);
    return true;
}

bool find_attribute(struct slice tag, const char *name, struct slice *value)
{
    struct slice found;
    take_until(&tag, WHITE_SPACE "/>"); /* the element's name */
    while (take_attribute(&tag, &found, value))
        if (slice_is(found, name))
            return true;
    *value = (struct slice){tag.bytes, 0};
    return false;
}

/* ---- Texts -------------------------------------------------------------------------------------------------------- */

static const struct {
    const char *written;
    uint8_t byte;
} references[] = {{"&amp;", '&'}, {"&lt;", '<'}, {"&gt;", '>'}, {"&quot;", '"'}, {"&apos;", '\''}};

/* Takes a reference from the front, if one stands there, and gives the byte that it stands for. */
static bool take_reference(struct slice *rest, uint8_t *byte)
{
    for (size_t i = 0; i < sizeof references / sizeof references[0]; i++) {
        if (starts_with(*rest, references[i].written)) {
            take(rest, strlen(references[i].written));
            *byte = references[i].byte;
            return true;
        }
    }
    return false;
}

/* Takes a control character from the front, if one stands there: U+007F is 7F, and U+0080 to U+009F are C2 80 to C2 9F. */
static bool take_control(struct slice *rest)
{
    const uint8_t *bytes = rest->bytes;
    if (bytes[0] < 0x20 || bytes[0] == 0x7F)
        return take(rest, 1).length > 0;
    if (rest->length > 1 && bytes[0] == 0xC2 && bytes[1] >= 0x80 && bytes[1] <= 0x9F)
        return take(rest, 2).length > 0;
    return false;
}

size_t decode_for_print(struct slice value, uint8_t *to)
{
    size_t length = 0;
    while (value.length > 0) {
        uint8_t byte = '?';
        if (!take_control(&value) && !take_reference(&value, &byte))
            byte = *take(&value, 1).bytes;
        to[length++] = byte;
    }
    return length;
}
