/*
 * Extended values decoded, and the titles of links: what a right `title*` gives, else what `title` means. In every room; a refusal leaves
 * the output as it was, and a success what stands behind the result.
 */
#include "capstan.h"

#include <stdio.h>
#include <string.h>

enum { LINK_SLOTS = 2 * CAPSTAN_LINK_SLOTS, PARAM_SLOTS = 4 * CAPSTAN_PARAM_SLOTS, OCTETS = 128, EDITIONS = 2, UNUSED = 77 };

/* By hand: an extended value and the octets that it gives, */
static const struct { const char *value, *gives; } right[] = {
    { "UTF-8'de'letztes%20Kapitel", "letztes Kapitel" },
    { "UTF-8'de'n%c3%a4chstes%20Kapitel", "n\303\244chstes Kapitel" },
    { "UTF-8''", "" }, { "utf-8'en'", "" }, { "uTf-8'-'a", "a" }, { "UTF-8'x-Klingon-09'a", "a" },
    { "UTF-8''!#$&+-.^_`|~", "!#$&+-.^_`|~" }, { "UTF-8''%25%27%2a%2A", "%'**" }, { "UTF-8''%7F", "\177" },
    { "UTF-8''%C2%80%dF%bf", "\302\200\337\277" },
    { "UTF-8''%e0%a0%80%ed%9f%bf", "\340\240\200\355\237\277" },
    { "UTF-8''%ee%80%80%ef%bf%bf", "\356\200\200\357\277\277" },
    { "UTF-8''%f0%90%80%80%f4%8f%bf%bf", "\360\220\200\200\364\217\277\277" },
};
/* and values that are wrong. */
static const char *const wrong[] = {
    "", "a", "UTF-8", "UTF-8'", "UTF-8'a", "'a", "''a", "UTF-8'''", "UTF-8''a'", "UTF8''a", "UTF-16''a", "ISO-8859-1''a", "UTF-8 ''a",
    " UTF-8''a", "UTF-8'd_e'a", "UTF-8'%64e'a", "UTF-8''a*", "UTF-8''a b", "UTF-8''a/", "UTF-8''\303\244", "UTF-8''\\a", "UTF-8''\"",
    "UTF-8''%", "UTF-8''%4", "UTF-8''%4g", "UTF-8''%g4", "UTF-8''%%41", "UTF-8''a%", "UTF-8''%80", "UTF-8''%bf", "UTF-8''%c3",
    "UTF-8''%c3a", "UTF-8''%c3%c3%a4", "UTF-8''%c0%af", "UTF-8''%c1%bf", "UTF-8''%e0%9f%bf", "UTF-8''%e2%82", "UTF-8''%ed%a0%80",
    "UTF-8''%ed%bf%bf", "UTF-8''%f0%8f%bf%bf", "UTF-8''%f0%90%80", "UTF-8''%f4%90%80%80", "UTF-8''%f5%80%80%80", "UTF-8''%ff",
};
enum { RIGHT = sizeof right / sizeof *right, WRONG = sizeof wrong / sizeof *wrong };

/* By hand: the parameters of a link, and its title, if it has one. */
static const struct { const char *params, *title; } rows[] = {
    { "", NULL }, { ";x;titles=a;title**=UTF-8''a", NULL },
    { ";title", "" }, { ";title=\"\"", "" }, { ";title=a;title=b", "a" }, { ";TITLE=\"\\\"\\a\\\\\"", "\"a\\" },
    { ";title=UTF-8''%41", "UTF-8''%41" }, { ";title=\"\377\\\303\"", "\377\303" },
    { ";title*=UTF-8''%41", "A" }, { ";Title*=\"UTF-8''%41\"", "A" }, { ";title*=\"\\U\\T\\F-8\\'\\'%\\4\\1\"", "A" },
    { ";title*=UTF-8''%41;title=b", "A" }, { ";title=b;title*=UTF-8''%41", "A" }, { ";title=b;title*=UTF-8''", "" },
    { ";title*=UTF-8''%0A%1b%7F;title=b", "\n\033\177" },
    { ";title*=UTF-8''%41;title*=UTF-8''%42", "A" }, { ";title*=%;title*=UTF-8''%42", NULL },
    { ";title*", NULL }, { ";title*;title=b", "b" }, { ";title*=\"\";title=b", "b" }, { ";title*=a;title=b", "b" },
    { ";title*=\"UTF-8''a b\";title=b", "b" }, { ";title*=\"UTF-8''\\\\\";title=\"\"", "" }, { ";title*=UTF-8''%ff;title=\"\\b\"", "b" },
};
enum { ROWS = sizeof rows / sizeof *rows };

static int failures;

/* Shows the first failure alone: one slip makes many wrong answers. */
static void expect(int holds, const char *what, const char *text, size_t room)
{
    if (!holds && failures++ == 0)
        printf("titles: %s, in room for %zu: %s\n", what, room, text);
}

static const uint8_t *octets(const char *text)
{
    return (const uint8_t *)text;
}

/* The output of a call, which is lent with other octets behind it. */
static uint8_t out[OCTETS], unused[OCTETS];

static uint8_t *fresh(void)
{
    memset(unused, UNUSED, OCTETS);
    return memcpy(out, unused, OCTETS);
}

/* What is due in that room: the octets, or the number of the refusal, which comes before the one for the room. */
static void expect_out(capstan_length_answer a, const char *due, size_t refused, size_t room, const char *what, const char *text)
{
    const size_t len = due == NULL ? 0 : strlen(due), fits = due != NULL && len <= room;
    const size_t number = fits ? CAPSTAN_DONE : due != NULL ? CAPSTAN_NO_OUTPUT_ROOM : refused, length = fits ? len : 0;

    expect(a.number == number && a.length == length, what, text, room);
    if (length > 0)
        expect(memcmp(out, due, length) == 0, "the octets", text, room);
    expect(memcmp(out + length, unused, OCTETS - length) == 0, "what was lent is changed", text, room);
}

static void test_decode(const char *value, const char *gives)
{
    for (size_t room = 0; room <= 40; room++) {
        const capstan_length_answer a = capstan_decode(octets(value), strlen(value), fresh(), room);
        expect_out(a, gives, CAPSTAN_BAD_EXTENDED, room, "it is decoded", value);
    }
}

/* Every octet for the one behind the quotes, and every two in triples: UTF-8 has few of these. */
static void test_octets(void)
{
    char value[] = "UTF-8''.", pair[OCTETS];

    for (size_t octet = 0; octet < 256; octet++) {
        const int letter = (octet >= '0' && octet <= '9') || (octet >= 'A' && octet <= 'Z') || (octet >= 'a' && octet <= 'z');
        const int plain = letter || (octet != 0 && strchr("!#$&+-.^_`|~", (int)octet) != NULL);
        value[7] = (char)octet;
        const capstan_length_answer a = capstan_decode(octets(value), 8, fresh(), OCTETS);
        expect(a.number == (plain ? CAPSTAN_DONE : CAPSTAN_BAD_EXTENDED) && a.length == (size_t)plain, "an octet", value, octet);
        expect(out[0] == (plain ? octet : UNUSED) && out[1] == UNUSED, "an octet's output", value, octet);
    }
    for (size_t i = 0; i < 65536; i++) {
        const size_t first = i / 256, second = i % 256;
        const int two = first >= 0xC2 && first <= 0xDF && second >= 0x80 && second <= 0xBF, fits = two || (first < 128 && second < 128);
        snprintf(pair, sizeof pair, i % 2 ? "UTF-8''%%%02zx%%%02zX" : "UTF-8''%%%02zX%%%02zx", first, second);
        const capstan_length_answer a = capstan_decode(octets(pair), strlen(pair), fresh(), OCTETS);
        expect(a.number == (fits ? CAPSTAN_DONE : CAPSTAN_BAD_EXTENDED) && a.length == (fits ? 2 : 0), "two octets", pair, 2);
        expect(out[0] == (fits ? first : UNUSED) && out[1] == (fits ? second : UNUSED), "two octets' output", pair, 2);
    }
}

/* About the limit: right values, and wrong ones, which are too long all the same. */
static void test_long(void)
{
    static uint8_t value[CAPSTAN_LIMIT + 1], room[CAPSTAN_LIMIT + 1];
    const size_t most = CAPSTAN_LIMIT - 7;
    capstan_length_answer a;

    memset(value, 'a', sizeof value);
    memset(room, UNUSED, sizeof room);
    a = capstan_decode(value, CAPSTAN_LIMIT, room, sizeof room);
    expect(a.number == CAPSTAN_BAD_EXTENDED && a.length == 0 && room[0] == UNUSED, "a wrong value", "8,192 octets", sizeof room);
    a = capstan_decode(value, CAPSTAN_LIMIT + 1, room, 0);
    expect(a.number == CAPSTAN_TOO_LONG && a.length == 0, "a wrong value", "8,193 octets", 0);
    memcpy(value, "UTF-8''", 7);
    a = capstan_decode(value, CAPSTAN_LIMIT + 1, room, sizeof room);
    expect(a.number == CAPSTAN_TOO_LONG && a.length == 0 && room[0] == UNUSED, "a value", "8,193 octets", sizeof room);
    a = capstan_decode(value, CAPSTAN_LIMIT, room, most - 1);
    expect(a.number == CAPSTAN_NO_OUTPUT_ROOM && a.length == 0 && room[0] == UNUSED, "a value", "8,192 octets", most - 1);
    a = capstan_decode(value, CAPSTAN_LIMIT, room, most);
    expect(a.number == CAPSTAN_DONE && a.length == most && memcmp(room, value + 7, most) == 0 && room[most] == UNUSED, "a value",
           "8,192 octets", most);
}

/* A text that is read, and asked for titles. */
static struct { size_t links[LINK_SLOTS], params[PARAM_SLOTS]; capstan_read_answer read; } table;

static void read_text(size_t edition, const char *text)
{
    table.read = capstan_read(edition, octets(text), strlen(text), table.links, LINK_SLOTS, table.params, PARAM_SLOTS);
    expect(table.read.number == CAPSTAN_DONE, "it is read", text, 0);
}

static capstan_length_answer title_of(size_t edition, const char *text, size_t len, size_t link, size_t room)
{
    return capstan_title(edition, octets(text), len, table.links, LINK_SLOTS, table.params, PARAM_SLOTS, table.read.links,
                         table.read.params, link, fresh(), room);
}

/* The link stands alone, and behind one of another title; an unknown edition and a link that isn't there are refused in each room. */
static void test_title(size_t edition, const char *params, const char *title)
{
    static const char *const before[] = { "<a>", "<b>;title=c, <a>" };
    char text[OCTETS];

    for (size_t i = 0; i < 2; i++) {
        snprintf(text, sizeof text, "%s%s", before[i], params);
        read_text(edition, text);
        for (size_t room = 0; room <= 16; room++) {
            const size_t len = strlen(text);
            expect_out(title_of(edition, text, len, i, room), title, CAPSTAN_NOT_FOUND, room, "the title", text);
            expect_out(title_of(edition, text, len, i + 1, room), NULL, CAPSTAN_NO_SUCH_LINK, room, "a link too many", text);
            expect_out(title_of(edition, text, len, SIZE_MAX, room), NULL, CAPSTAN_NO_SUCH_LINK, room, "the last number", text);
            expect_out(title_of(edition + 2, text, len, i, room), NULL, CAPSTAN_UNKNOWN_EDITION, room, "an unknown edition", text);
        }
    }
}

/* Each slot that is another number makes the table bad; a text over the limit comes before that, and an unknown edition before both. */
static void test_refused(size_t edition)
{
    static char long_text[CAPSTAN_LIMIT + 2];
    static const char text[] = "<a>;title*=UTF-8''a;title=b";
    const size_t len = sizeof text - 1;

    memset(long_text, 'a', CAPSTAN_LIMIT + 1);
    for (size_t i = 0; i < CAPSTAN_LINK_SLOTS + 2 * CAPSTAN_PARAM_SLOTS; i++) {
        read_text(edition, text);
        *(i < CAPSTAN_LINK_SLOTS ? table.links + i : table.params + (i - CAPSTAN_LINK_SLOTS)) = SIZE_MAX - 1;
        expect_out(title_of(edition, text, len, 0, OCTETS), NULL, CAPSTAN_BAD_TABLE, OCTETS, "a bad table", text);
        expect_out(title_of(edition, text, len, 1, 0), NULL, CAPSTAN_BAD_TABLE, 0, "a bad table, and no such link", text);
        expect_out(title_of(edition, long_text, CAPSTAN_LIMIT + 1, 1, 0), NULL, CAPSTAN_TOO_LONG, 0, "a long text", "8,193 octets");
        expect_out(title_of(SIZE_MAX, long_text, CAPSTAN_LIMIT + 1, 1, 0), NULL, CAPSTAN_UNKNOWN_EDITION, 0, "no edition, and a long text",
                   "8,193 octets");
    }
}

int main(void)
{
    for (size_t i = 0; i < RIGHT; i++) test_decode(right[i].value, right[i].gives);
    for (size_t i = 0; i < WRONG; i++) test_decode(wrong[i], NULL);
    test_octets();
    test_long();
    const capstan_length_answer nul = capstan_decode(octets("UTF-8''%00"), 10, fresh(), 1);
    expect(nul.number == CAPSTAN_DONE && nul.length == 1 && out[0] == 0 && out[1] == UNUSED, "an octet 0", "UTF-8''%00", 1);
    for (size_t edition = 0; edition < EDITIONS; edition++) {
        for (size_t row = 0; row < ROWS; row++) test_title(edition, rows[row].params, rows[row].title);
        test_refused(edition);
    }
    read_text(CAPSTAN_RFC5988, "<a>;title*=UTF-8''a/b;title=c/d");
    expect_out(title_of(CAPSTAN_RFC5988, "<a>;title*=UTF-8''a/b;title=c/d", 31, 0, 3), "c/d", 0, 3, "wider values", "a/b and c/d");
    return failures != 0;
}
