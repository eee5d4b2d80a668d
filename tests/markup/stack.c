/*
 * Reads texts of the greatest length and depth by markup::is_document. tests/run runs it with 64 KB of stack: the reader's stack grows
 * with the elements that are open, of which there are at most 8, and not with those side by side.
 */
#include <stdint.h>
#include <stdio.h>
#include <string.h>

uint64_t markup_bench_is_document(const uint8_t *text, size_t length);

enum { MOST = 16384 };

static char text[MOST + 1];
static size_t length;

static void add(const char *what, int times)
{
    size_t n = strlen(what);
    for (; times > 0 && length + n <= MOST; times--, length += n)
        memcpy(text + length, what, n);
}

/* So many elements inside one another, and as many as there is room for, up to 4,000, side by side in the innermost. */
static uint64_t answer(int around, const char *one)
{
    length = 0;
    add("<a>", around);
    for (int k = 0; k < 4000 && length + strlen(one) + 4 * (size_t)around <= MOST; k++)
        add(one, 1);
    add("</a>", around);
    return markup_bench_is_document((const uint8_t *)text, length);
}

int main(void)
{
    struct {
        const char *what;
        int around;
        const char *one;
        uint64_t expected;
    } rows[] = {
        {"4,000 side by side at the second level", 1, "<b/>", 1},
        {"4,000 side by side at the eighth", 7, "<b/>", 1},
        {"4,000 side by side at the ninth", 8, "<b/>", 0},
        {"with end tags at the eighth", 7, "<b></b>", 1},
        {"7 open at the second level, again and again", 1, "<b><c><d><e><f><g><h/></g></f></e></d></c></b>", 1},
        {"8 open at the second level, again and again", 1, "<b><c><d><e><f><g><h><i/></h></g></f></e></d></c></b>", 0},
        {"5,461 tags without an end", 5461, "", 0},
    };
    int wrong = 0;
    for (size_t i = 0; i < sizeof rows / sizeof rows[0]; i++) {
        if (answer(rows[i].around, rows[i].one) != rows[i].expected) {
            printf("%s: %s\n", rows[i].what, rows[i].expected ? "refused" : "accepted");
            wrong = 1;
        }
    }
    return wrong;
}
