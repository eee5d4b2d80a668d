#include "text.h"

#include <stdarg.h>
#include <stdio.h>
#include <string.h>

/* The length of the longest beginning that is whole characters and fits. */
static size_t cut(const uint8_t *bytes, size_t length, size_t room)
{
    return rigcactus_length(rigcactus_cut(bytes, length, room));
}

void add_bytes(struct text *text, const uint8_t *bytes, size_t length)
{
    if (text->is_full || length == 0)
        return;
    size_t kept = cut(bytes, length, sizeof text->bytes - text->length);
    memcpy(text->bytes + text->length, bytes, kept);
    text->length += kept;
    text->is_full = kept < length;
}

void add_words(struct text *text, const char *words)
{
    add_bytes(text, (const uint8_t *)words, strlen(words));
}

void add(struct text *text, const char *format, ...)
{
    char added[128];
    va_list values;
    va_start(values, format);
    vsnprintf(added, sizeof added, format, values);
    va_end(values);
    add_words(text, added);
}

static void print_line(const uint8_t *bytes, size_t length)
{
    fwrite(bytes, 1, length, stdout);
    putchar('\n');
}

void print_cut(const struct text *text, size_t width)
{
    print_line(text->bytes, cut(text->bytes, text->length, width));
}

/*
 * How many bytes the first line takes of a text that is longer than the width: those before the last space that it reaches, if there is
 * one. It takes a byte or more, since a character is never longer than the width.
 */
static size_t line_length(const uint8_t *bytes, size_t length, size_t width)
{
    size_t end = width;
    while (end > 0 && bytes[end] != ' ')
        end--;
    return end > 0 ? end : cut(bytes, length, width);
}

void print_wrapped(const struct text *text, size_t width)
{
    const uint8_t *bytes = text->bytes;
    size_t left = text->length;
    while (left > width) {
        size_t taken = line_length(bytes, left, width);
        print_line(bytes, taken);
        taken += bytes[taken] == ' '; /* the space where a line ends is not printed */
        bytes += taken;
        left -= taken;
    }
    print_line(bytes, left);
}

void print_rule(char character, size_t width)
{
    for (size_t i = 0; i < width; i++)
        putchar(character);
    putchar('\n');
}
