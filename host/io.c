#include "io.h"

#include <errno.h>
#include <stdarg.h>
#include <string.h>

int say(int status, const char *format, ...)
{
    va_list values;
    va_start(values, format);
    fputs("rigcactus: ", stderr);
    vfprintf(stderr, format, values);
    fputc('\n', stderr);
    va_end(values);
    return status;
}

int say_refused(uint64_t answer)
{
    int refusal = rigcactus_refusal(answer);
    return say(REFUSED, "refused: %s (%d)", rigcactus_refusal_name(refusal), refusal);
}

int read_stream(FILE *from, const char *name, struct input *input)
{
    input->length = fread(input->bytes, 1, sizeof input->bytes, from);
    if (ferror(from))
        return say(FAILED, "cannot read %s: %s", name, strerror(errno));
    return ACCEPTED;
}

int read_file(const char *name, struct input *input)
{
    FILE *file = fopen(name, "rb");
    if (file == NULL)
        return say(FAILED, "cannot read %s: %s", name, strerror(errno));
    int status = read_stream(file, name, input);
    fclose(file);
    return status;
}

int finish_output(void)
{
    if (fflush(stdout) == EOF || ferror(stdout))
        return say(FAILED, "cannot write standard output: %s", strerror(errno));
    return ACCEPTED;
}

bool read_number(const char *text, uint64_t *number)
{
    uint64_t n = 0;
    if (*text == '\0')
        return false;
    for (; *text != '\0'; text++) {
        if (*text < '0' || *text > '9')
            return false;
        uint64_t digit = (uint64_t)(*text - '0');
        if (n > (UINT64_MAX - digit) / 10)
            return false;
        n = n * 10 + digit;
    }
    *number = n;
    return true;
}

bool read_signed_number(const char *text, int64_t *number)
{
    bool negative = *text == '-';
    if (*text == '-' || *text == '+')
        text++;
    uint64_t magnitude;
    if (!read_number(text, &magnitude) || magnitude > INT64_MAX)
        return false;
    *number = negative ? -(int64_t)magnitude : (int64_t)magnitude;
    return true;
}
