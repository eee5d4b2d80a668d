/*
 * Compares markup::is_document with expat on many texts: whether each is accepted.
 *
 *     expat [CASES [SEED]]     CASES texts (1000000) are made from SEED (1), a third each valid but for a rare feature of XML that the
 *                              rules leave out, damaged in one to three bytes, and random bytes of markup
 *
 * The rules' grammar is a part of XML's. Expat, with handlers, says of each text that it accepts which features it uses that the rules
 * leave out; the text must then be refused, and one that uses none must be accepted:
 *
 *     a byte order mark, an XML declaration, a document type, an instruction, a comment, a CDATA section; text other than white space
 *     between tags; a reference by number; a value in single quotes, or with a tab, CR or LF in it; a name with a letter beyond ASCII or
 *     that begins with a colon; more than 8 elements open at once
 *
 * Left out of the comparison: texts that are not UTF-8, which expat refuses and the markup rules do not judge (the check service has
 * refused them before); and namespaces, which neither side looks at here. The exit status is 1 where the two differ.
 */
#include <expat.h>
#include <stdbool.h>
#include <stdint.h>
#include <stdio.h>
#include <stdlib.h>
#include <string.h>

uint64_t markup_bench_is_document(const uint8_t *text, size_t length);

enum { MOST = 4096, DEPTH = 8 };

/* ---- numbers that look random and are the same in every run */

static uint64_t state;

static uint32_t below(uint32_t end)
{
    state = state * UINT64_C(6364136223846793005) + UINT64_C(1442695040888963407);
    return (uint32_t)((state >> 33) % end);
}

static bool one_in(uint32_t n)
{
    return below(n) == 0;
}

/* ---- texts */

static char text[MOST];
static size_t length;

/* One in so many places uses a feature that the rules leave out. 0: none does. */
static uint32_t rare;

static void add(const char *what)
{
    size_t n = strlen(what);
    if (length + n < MOST) {
        memcpy(text + length, what, n);
        length += n;
    }
}

static bool strange(void)
{
    return rare != 0 && one_in(rare);
}

static const char *pick(const char *const *from, size_t count)
{
    return from[below((uint32_t)count)];
}

#define PICK(list) pick(list, sizeof list / sizeof list[0])

static void add_space(uint32_t most)
{
    static const char *const spaces[] = {" ", "\t", "\r", "\n", "\r\n", "  "};
    for (uint32_t n = below(most + 1); n > 0; n--)
        add(PICK(spaces));
}

static void add_name(void)
{
    static const char *const names[] = {"a", "b", "c", "low", "high", "term", "xsi:type", "value", "_", "A-1.b:c", "xmlns", "xmlns:xsi", "aa", "ab"};
    static const char *const others[] = {"\303\251", "a\303\251", ":a", ":", "\345\274\240"};
    add(strange() ? PICK(others) : PICK(names));
}

static void add_value(void)
{
    static const char *const pieces[] = {"a", "20240501", " ", "&amp;", "&lt;", "&gt;", "&quot;", "&apos;", ">", "\303\253", "\345\274\240", "\360\237\230\200", "\357\277\275", "\177", "/>", "]]>", "--", "="};
    static const char *const others[] = {"\t", "\n", "\r", "&#38;", "&#x41;", "\357\277\276", "\357\277\277", "&", "<", "\1", "&nbsp;", "&amp"};
    bool single = strange();
    add(single ? "'" : "\"");
    for (uint32_t n = below(5); n > 0; n--)
        add(strange() ? PICK(others) : PICK(pieces));
    if (!single && one_in(8))
        add("'");
    add(single ? "'" : "\"");
}

static void add_between(void)
{
    static const char *const others[] = {"text", "&amp;", "&#32;", "<!-- b -->", "<?b c?>", "<![CDATA[b]]>", "<![CDATA[]]>", "\303\251", "]]>", "&"};
    add_space(one_in(3) ? 2 : 0);
    if (strange())
        add(PICK(others));
}

static void add_element(int depth)
{
    size_t from = length + 1;
    add("<");
    add_name();
    size_t name_end = length;
    for (uint32_t n = one_in(2) ? below(4) : 0; n > 0; n--) {
        add(" ");
        add_space(one_in(6) ? 2 : 0);
        add_name();
        add_space(one_in(6));
        add("=");
        add_space(one_in(6));
        add_value();
    }
    add_space(one_in(6));
    if (depth == 0 || one_in(3)) {
        add("/>");
        return;
    }
    add(">");
    add_between();
    for (uint32_t n = below(4); n > 0; n--) {
        add_element(one_in(3) ? 0 : depth - 1);
        add_between();
    }
    add("</");
    char name[64];
    size_t n = name_end - from < sizeof name ? name_end - from : sizeof name - 1;
    memcpy(name, text + from, n);
    name[n] = '\0';
    add(name);
    add_space(one_in(6));
    add(">");
}

/* Elements inside one another, so many, with others beside them. */
static void add_tower(uint32_t height)
{
    for (uint32_t k = 0; k < height; k++) {
        add("<a>");
        if (one_in(4))
            add("<b/>");
    }
    for (uint32_t k = 0; k < height; k++)
        add("</a>");
}

static void make_valid(void)
{
    static const char *const first[] = {"\357\273\277", "<?xml version=\"1.0\"?>", "<!DOCTYPE a>", "<!-- b -->", "<?b?>"};
    static const char *const last[] = {"<!-- b -->", "<?b?>", "<a/>", "x"};
    length = 0;
    if (strange())
        add(PICK(first));
    add_space(one_in(4));
    if (one_in(20))
        add_tower(1 + below(12));
    else
        add_element((int)below(8));
    add_space(one_in(4));
    if (strange())
        add(PICK(last));
}

static char any_byte(void)
{
    static const char usual[] = "<>/=\"' \t\n&;ab:_-.0!?[]\0\1\r";
    return one_in(6) ? (char)below(256) : usual[below(sizeof usual - 1)];
}

static void damage(void)
{
    for (uint32_t n = 1 + below(3); n > 0 && length > 0 && length + 1 < MOST; n--) {
        size_t at = below((uint32_t)length);
        switch (below(4)) {
        case 0:
            text[at] = any_byte();
            break;
        case 1:
            memmove(text + at, text + at + 1, --length - at);
            break;
        case 2:
            memmove(text + at + 1, text + at, length++ - at);
            text[at] = any_byte();
            break;
        default:
            text[at] = text[below((uint32_t)length)];
        }
    }
}

static void make_random(void)
{
    static const char *const pieces[] = {"<a", "<b", ">", "/>", "</a>", "</b", " ", "b=", "c=\"", "\"", "\"1\"", "'", "&amp;", "&lt", "=", "<", "/", "a", "\n", "<a>", "<a/>"};
    length = 0;
    for (uint32_t n = below(12); n > 0; n--) {
        if (one_in(8)) {
            char one[2] = {any_byte(), '\0'};
            add(one);
        } else {
            add(PICK(pieces));
        }
    }
}

/* ---- the other side */

/* Whether bytes are UTF-8 by RFC 3629: each character is decoded and must be written in the fewest bytes. */
static bool is_utf8(const uint8_t *s, size_t n)
{
    static const uint32_t least[] = {0, 0x80, 0x800, 0x10000};
    for (size_t i = 0; i < n;) {
        int more = s[i] < 0x80 ? 0 : s[i] >> 5 == 6 ? 1 : s[i] >> 4 == 14 ? 2 : s[i] >> 3 == 30 ? 3 : -1;
        if (more < 0 || i + (size_t)more >= n)
            return false;
        uint32_t c = more == 0 ? s[i] : s[i] & (0x3Fu >> more);
        for (int k = 1; k <= more; k++) {
            if (s[i + (size_t)k] >> 6 != 2)
                return false;
            c = c << 6 | (s[i + (size_t)k] & 0x3F);
        }
        if (c < least[more] || c > 0x10FFFF || (c >= 0xD800 && c <= 0xDFFF))
            return false;
        i += (size_t)more + 1;
    }
    return true;
}

enum feature { MARK, DECLARATION, DOCTYPE, INSTRUCTION, COMMENT, CDATA, BETWEEN, NUMBER, SINGLE, CONTROL, NAME, DEEP, FEATURES };

static const char *const feature_names[FEATURES] = {
    "a byte order mark", "an XML declaration", "a document type", "an instruction", "a comment", "a CDATA section", "text between tags",
    "a reference by number", "single quotes", "tab, CR or LF in a value", "another name", "more than 8 open",
};

static XML_Parser parser;
static bool used[FEATURES];
static int open_now;

static void on_declaration(void *data, const XML_Char *version, const XML_Char *encoding, int standalone)
{
    (void)data, (void)version, (void)encoding, (void)standalone;
    used[DECLARATION] = true;
}

static void on_doctype(void *data, const XML_Char *name, const XML_Char *system, const XML_Char *public, int internal)
{
    (void)data, (void)name, (void)system, (void)public, (void)internal;
    used[DOCTYPE] = true;
}

static void on_instruction(void *data, const XML_Char *target, const XML_Char *rest)
{
    (void)data, (void)target, (void)rest;
    used[INSTRUCTION] = true;
}

static void on_comment(void *data, const XML_Char *what)
{
    (void)data, (void)what;
    used[COMMENT] = true;
}

static void on_cdata(void *data)
{
    (void)data;
    used[CDATA] = true;
}

static void on_text(void *data, const XML_Char *s, int n)
{
    (void)data;
    for (int i = 0; i < n; i++)
        if (strchr(" \t\r\n", s[i]) == NULL || s[i] == '\0')
            used[BETWEEN] = true;
}

static bool is_plain_name(const char *s)
{
    static const char starts[] = "ABCDEFGHIJKLMNOPQRSTUVWXYZabcdefghijklmnopqrstuvwxyz_";
    size_t n = strspn(s, "ABCDEFGHIJKLMNOPQRSTUVWXYZabcdefghijklmnopqrstuvwxyz_0123456789.-:");
    return strchr(starts, s[0]) != NULL && s[n] == '\0';
}

/* Names, depth, and, since expat does not tell, the quotes and control bytes of the tag as it is written. */
static void on_start(void *data, const XML_Char *name, const XML_Char **attributes)
{
    (void)data;
    used[DEEP] |= ++open_now > DEPTH;
    used[NAME] |= !is_plain_name(name);
    for (int i = 0; attributes[i] != NULL; i += 2)
        used[NAME] |= !is_plain_name(attributes[i]);
    const char *tag = text + XML_GetCurrentByteIndex(parser);
    char quote = '\0';
    for (int i = 0; i < XML_GetCurrentByteCount(parser); i++) {
        if (quote == '\0') {
            quote = tag[i] == '"' || tag[i] == '\'' ? tag[i] : '\0';
            used[SINGLE] |= quote == '\'';
        } else if (tag[i] == quote) {
            quote = '\0';
        } else {
            used[CONTROL] |= strchr("\t\r\n", tag[i]) != NULL;
        }
    }
}

static void on_end(void *data, const XML_Char *name)
{
    (void)data, (void)name;
    open_now--;
}

/* Whether expat accepts the text; `used` has the features. */
static bool expat_accepts(void)
{
    XML_ParserReset(parser, "UTF-8");
    XML_SetXmlDeclHandler(parser, on_declaration);
    XML_SetDoctypeDeclHandler(parser, on_doctype, NULL);
    XML_SetProcessingInstructionHandler(parser, on_instruction);
    XML_SetCommentHandler(parser, on_comment);
    XML_SetCdataSectionHandler(parser, on_cdata, NULL);
    XML_SetCharacterDataHandler(parser, on_text);
    XML_SetElementHandler(parser, on_start, on_end);
    memset(used, 0, sizeof used);
    open_now = 0;
    used[MARK] = length >= 3 && memcmp(text, "\357\273\277", 3) == 0;
    for (size_t i = 0; i + 1 < length; i++)
        used[NUMBER] |= text[i] == '&' && text[i + 1] == '#';
    return XML_Parse(parser, text, (int)length, XML_TRUE) == XML_STATUS_OK;
}

/* ---- the comparison */

enum kind { VALID, DAMAGED, RANDOM, KINDS };

static const char *const kind_names[KINDS] = {"valid", "damaged", "random"};
static uint64_t accepted[KINDS], refused[KINDS], outside[KINDS], not_utf8[KINDS], by_feature[FEATURES];

static void make(enum kind kind)
{
    rare = kind == RANDOM || one_in(2) ? 0 : 20;
    if (kind == RANDOM)
        make_random();
    else
        make_valid();
    if (kind == DAMAGED)
        damage();
}

static bool compare(enum kind kind)
{
    if (!is_utf8((const uint8_t *)text, length)) {
        not_utf8[kind]++;
        return true;
    }
    bool ours = markup_bench_is_document((const uint8_t *)text, length) == 1;
    bool theirs = expat_accepts(), left_out = false;
    for (int i = 0; theirs && i < FEATURES; i++) {
        left_out |= used[i];
        by_feature[i] += used[i];
    }
    if (ours != (theirs && !left_out)) {
        printf("%s by Rigcactus, %s by expat%s: ", ours ? "accepted" : "refused", theirs ? "accepted" : "refused", left_out ? ", which the rules leave out" : "");
        fwrite(text, 1, length, stdout);
        printf("\n");
        return false;
    }
    (ours ? accepted : left_out ? outside : refused)[kind]++;
    return true;
}

int main(int argc, char **argv)
{
    uint64_t cases = argc > 1 ? strtoull(argv[1], NULL, 10) : 1000000;
    state = argc > 2 ? strtoull(argv[2], NULL, 10) : 1;
    parser = XML_ParserCreate("UTF-8");
    for (uint64_t k = 0; k < cases; k++) {
        enum kind kind = (enum kind)(k % KINDS);
        make(kind);
        if (!compare(kind))
            return 1;
    }
    printf("%-12s%14s%14s%26s%14s\n", "texts", "both accept", "both refuse", "expat accepts, left out", "not UTF-8");
    for (int i = 0; i < KINDS; i++)
        printf("%-12s%14llu%14llu%26llu%14llu\n", kind_names[i], (unsigned long long)accepted[i], (unsigned long long)refused[i], (unsigned long long)outside[i], (unsigned long long)not_utf8[i]);
    for (int i = 0; i < FEATURES; i++)
        printf("    %-28s%12llu\n", feature_names[i], (unsigned long long)by_feature[i]);
    return 0;
}
