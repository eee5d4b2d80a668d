/*
 * Messages, reading and writing: what every command of the program needs.
 */
#ifndef HOST_IO_H
#define HOST_IO_H

#include "rigcactus.h"

#include <stdbool.h>
#include <stdio.h>

/* How the program ends: its exit status. Functions that can fail give one of these back. */
enum { ACCEPTED = 0, REFUSED = 1, BAD_USAGE = 2, FAILED = 3 };

/* An input. One byte over the limit is enough to be refused, so no more than that is ever held. */
struct input {
    uint8_t bytes[RIGCACTUS_MOST_BYTES + 1];
    size_t length;
};

/* Writes a line to standard error, and gives the status back for the caller to return. */
__attribute__((format(printf, 2, 3))) int say(int status, const char *format, ...);

/* Says on standard error what an answer refuses for, and gives REFUSED back. */
int say_refused(uint64_t answer);

/* Reads a stream to its end, or to one byte over the limit. The name is for the message if that fails. */
int read_stream(FILE *from, const char *name, struct input *input);

/* Reads a file as read_stream does. */
int read_file(const char *name, struct input *input);

/* Sees that all that was written to standard output is out. */
int finish_output(void);

/* Reads a number that is written in decimal digits alone. Gives false back, and no number, if it is not one or does not fit. */
bool read_number(const char *text, uint64_t *number);

/* Reads a number as read_number does, with a sign before it or none. */
bool read_signed_number(const char *text, int64_t *number);

#endif
