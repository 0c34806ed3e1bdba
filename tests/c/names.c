/* The code of each known name in either case, of all that is one octet off, and of other octets; and what reading keeps of a name. */
#include "capstan.h"

#include <stdio.h>
#include <string.h>

/* Each name with its code, and how many of two parameters of that name a link keeps. */
static const struct { const char *name; size_t code, kept; } rows[] = {
    { "rel", CAPSTAN_REL, 1 },
    { "anchor", CAPSTAN_ANCHOR, 1 },
    { "media", CAPSTAN_MEDIA, 1 },
    { "title", CAPSTAN_TITLE, 1 },
    { "title*", CAPSTAN_TITLE_STAR, 1 },
    { "type", CAPSTAN_TYPE, 1 },
    { "hreflang", CAPSTAN_HREFLANG, 2 },
    { "rev", CAPSTAN_REV, 2 },
    { "relation", CAPSTAN_OTHER_NAME, 2 },
};
enum { ROWS = sizeof rows / sizeof *rows, OCTETS = 32 };

static int failures;

/* Shows the octets, those that can't be printed as dots. */
static void expect(int holds, const uint8_t *octets, size_t len, const char *what)
{
    if (holds)
        return;
    printf("names: %s: ", what);
    for (size_t i = 0; i < len && i < OCTETS; i++) putchar(octets[i] > 32 && octets[i] < 127 ? octets[i] : '.');
    putchar('\n');
    failures++;
}

static uint8_t small(uint8_t octet)
{
    return octet >= 'A' && octet <= 'Z' ? (uint8_t)(octet + 32) : octet;
}

static uint8_t capital(uint8_t octet)
{
    return octet >= 'a' && octet <= 'z' ? (uint8_t)(octet - 32) : octet;
}

/* The code that the rows have for these octets. */
static size_t due(const uint8_t *octets, size_t len)
{
    for (size_t row = 0; row < ROWS; row++) {
        size_t same = 0;
        while (same < len && rows[row].name[same] != 0 && small(octets[same]) == (uint8_t)rows[row].name[same]) same++;
        if (same == len && rows[row].name[same] == 0)
            return rows[row].code;
    }
    return CAPSTAN_OTHER_NAME;
}

static void check(const uint8_t *octets, size_t len, const char *what)
{
    expect(capstan_name_code(octets, len) == due(octets, len), octets, len, what);
}

/* Each octet in each place of the name, before it and behind it; the name without each of its octets, and each part of it. */
static void test_near(const uint8_t *name, size_t len)
{
    uint8_t near[OCTETS];

    for (size_t place = 0; place <= len; place++) {
        for (int octet = 0; octet < 256; octet++) {
            memcpy(near, name, len);
            near[place] = (uint8_t)octet;
            check(near, place < len ? len : len + 1, "one octet other");
            memcpy(near + place + 1, name + place, len - place);
            check(near, len + 1, "one octet more");
        }
        if (place < len) {
            memcpy(near, name, place);
            memcpy(near + place, name + place + 1, len - place - 1);
            check(near, len - 1, "one octet fewer");
        }
        check(name + place, len - place, "the end of a name");
        check(name, place, "the beginning of a name");
    }
}

/* Two parameters of the name, the second in capitals: only the first is kept, or both are. */
static void test_kept(const char *name, const uint8_t *capitals, size_t len, size_t kept)
{
    uint8_t header[2 * OCTETS] = "<a>;";
    size_t links[CAPSTAN_LINK_SLOTS] = { 0 }, params[2 * CAPSTAN_PARAM_SLOTS] = { 0 };

    memcpy(header + 4, name, len);
    header[4 + len] = ';';
    memcpy(header + 5 + len, capitals, len);
    capstan_read_answer r = capstan_read(CAPSTAN_RFC8288, header, 5 + 2 * len, links, CAPSTAN_LINK_SLOTS, params,
                                         2 * CAPSTAN_PARAM_SLOTS);
    expect(r.number == CAPSTAN_DONE && r.params == kept && params[0] == 4, capitals, len, "kept otherwise");
}

static void test_row(size_t row)
{
    const char *name = rows[row].name;
    const size_t len = strlen(name);
    uint8_t octets[OCTETS], capitals[OCTETS];

    for (size_t i = 0; i < len; i++) octets[i] = (uint8_t)name[i];
    for (size_t i = 0; i < len; i++) capitals[i] = capital(octets[i]);
    expect(capstan_name_code(octets, len) == rows[row].code, octets, len, "another code");
    expect(capstan_name_code(capitals, len) == rows[row].code, capitals, len, "another code");
    test_near(octets, len);
    test_near(capitals, len);
    test_kept(name, capitals, len, rows[row].kept);
}

/* Octets past the limit of a header are allowed, and are no known name however they begin. */
static void test_long(void)
{
    static uint8_t long_name[2 * CAPSTAN_LIMIT];

    memset(long_name, '*', sizeof long_name);
    memcpy(long_name, "title", 5);
    expect(capstan_name_code(long_name, 6) == CAPSTAN_TITLE_STAR, long_name, 6, "another code");
    check(long_name, CAPSTAN_LIMIT, "a long name");
    check(long_name, sizeof long_name, "a long name");
}

int main(void)
{
    for (size_t row = 0; row < ROWS; row++) test_row(row);
    test_long();
    return failures != 0;
}
