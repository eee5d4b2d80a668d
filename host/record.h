/*
 * Texts out of a record, for printing.
 *
 * The services answer questions about a record and hand no texts of it back. A receipt needs some: these functions find them in a record
 * that rigcactus_check accepted, or refused with DATE, CLOCK or ZONE, and rely on it for what they find: that `<` begins tags alone, that attributes
 * stand in double quotes, and that `&` begins one of the five references. Any other bytes are safe to give them too. No byte outside the
 * record is read.
 */
#ifndef HOST_RECORD_H
#define HOST_RECORD_H

#include <stdbool.h>
#include <stddef.h>
#include <stdint.h>

/* Some bytes of a record, or all of it. */
struct slice {
    const uint8_t *bytes;
    size_t length;
};

/* Takes so many bytes from the front, or all if there are fewer. */
struct slice take(struct slice *rest, size_t length);

/* Takes the bytes before the first that is one of these letters, or all if none is. */
struct slice take_until(struct slice *rest, const char *letters);

/*
 * Takes the next start tag, or empty-element tag, from the front of what is left of a record, with all that comes before it. Gives false
 * back if there is none. The tag goes from the element's name on, up to the next tag or the record's end.
 */
bool take_tag(struct slice *rest, struct slice *tag);

/* Finds an attribute of a tag, and its value as written, without the quotes. Gives false back, and an empty value, if there is none. */
bool find_attribute(struct slice tag, const char *name, struct slice *value);

/* Whether a value, as written, is these letters. For texts that no reference can stand in. */
bool slice_is(struct slice value, const char *letters);

/* Whether a value, as written, has these letters among its words, which spaces part. */
bool slice_has_word(struct slice value, const char *letters);

/*
 * Writes a value as it is to be printed, and gives its length back, which is never more than the value's as written. The five references
 * are decoded. A control character is printed as `?`, so that no text of a record commands the printer: U+007F, and U+0080 to U+009F.
 */
size_t decode_for_print(struct slice value, uint8_t *to);

#endif
