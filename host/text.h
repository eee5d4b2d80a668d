/*
 * A text that is put together and then printed on paper of some width.
 *
 * A width is in bytes, as a room is for rigcactus_cut. It is at least LEAST_WIDTH, since a character can have four bytes.
 */
#ifndef HOST_TEXT_H
#define HOST_TEXT_H

#include "rigcactus.h"

#include <stdbool.h>

enum { LEAST_WIDTH = 4, USUAL_WIDTH = 32, MOST_WIDTH = RIGCACTUS_MOST_BYTES };

/* A text, always UTF-8. It starts with length 0, and not full. */
struct text {
    uint8_t bytes[RIGCACTUS_MOST_BYTES];
    size_t length;
    bool is_full;  /* whether something was left out: then nothing more is added */
};

/* Adds bytes, or of what does not fit as many whole characters as do. Bytes that are not UTF-8 are left out. */
void add_bytes(struct text *text, const uint8_t *bytes, size_t length);

/* Adds a text that ends in a zero byte. */
void add_words(struct text *text, const char *words);

/* Adds what printf would write, up to 127 bytes of it. */
__attribute__((format(printf, 2, 3))) void add(struct text *text, const char *format, ...);

/* Prints a line: as much of a text's beginning as fits the width in whole characters. The rest is left out. */
void print_cut(const struct text *text, size_t width);

/* Prints a text in lines that fit the width. Lines end at spaces, and inside a word where it is longer than a line. */
void print_wrapped(const struct text *text, size_t width);

/* Prints a line of one character, as wide as the paper. */
void print_rule(char character, size_t width);

#endif
