/*
 * References resolved on a base, and the resolved contexts of links. In every room; a refusal leaves the output as it was, and a success
 * what stands behind the result. Of every two things that are wrong, the one whose number comes first is told.
 */
#include "capstan.h"

#include <stdio.h>
#include <string.h>

enum { LINK_SLOTS = 2 * CAPSTAN_LINK_SLOTS, PARAM_SLOTS = 4 * CAPSTAN_PARAM_SLOTS, OCTETS = 128, EDITIONS = 2, UNUSED = 'M' };

/* RFC 3986's examples, normal and abnormal, on its base, */
static const char rfc_base[] = "http://a/b/c/d;p?q";
static const struct { const char *reference, *result; } examples[] = {
    { "g:h", "g:h" }, { "g", "http://a/b/c/g" }, { "./g", "http://a/b/c/g" }, { "g/", "http://a/b/c/g/" }, { "/g", "http://a/g" },
    { "//g", "http://g" }, { "?y", "http://a/b/c/d;p?y" }, { "g?y", "http://a/b/c/g?y" }, { "#s", "http://a/b/c/d;p?q#s" },
    { "g#s", "http://a/b/c/g#s" }, { "g?y#s", "http://a/b/c/g?y#s" }, { ";x", "http://a/b/c/;x" }, { "g;x", "http://a/b/c/g;x" },
    { "g;x?y#s", "http://a/b/c/g;x?y#s" }, { "", "http://a/b/c/d;p?q" }, { ".", "http://a/b/c/" }, { "./", "http://a/b/c/" },
    { "..", "http://a/b/" }, { "../", "http://a/b/" }, { "../g", "http://a/b/g" }, { "../..", "http://a/" }, { "../../", "http://a/" },
    { "../../g", "http://a/g" },
    { "../../../g", "http://a/g" }, { "../../../../g", "http://a/g" }, { "/./g", "http://a/g" }, { "/../g", "http://a/g" },
    { "g.", "http://a/b/c/g." }, { ".g", "http://a/b/c/.g" }, { "g..", "http://a/b/c/g.." }, { "..g", "http://a/b/c/..g" },
    { "./../g", "http://a/b/g" }, { "./g/.", "http://a/b/c/g/" }, { "g/./h", "http://a/b/c/g/h" }, { "g/../h", "http://a/b/c/h" },
    { "g;x=1/./y", "http://a/b/c/g;x=1/y" }, { "g;x=1/../y", "http://a/b/c/y" }, { "g?y/./x", "http://a/b/c/g?y/./x" },
    { "g?y/../x", "http://a/b/c/g?y/../x" }, { "g#s/./x", "http://a/b/c/g#s/./x" }, { "g#s/../x", "http://a/b/c/g#s/../x" },
    { "http:g", "http:g" },
};
/* and rows by hand on others. */
static const struct { const char *base, *reference, *result; } rows[] = {
    { "a:b?q", "?", "a:b?" }, { "a:b?q", "#", "a:b?q#" }, { "a:b?q#f", "", "a:b?q" }, { "a:b?q#f", "c", "a:c" }, { "a:#", "", "a:" },
    { "a://", "b", "a:///b" }, { "a://b", "c", "a://b/c" }, { "a://b?q", "c", "a://b/c" }, { "a://b", "..", "a://b/" },
    { "a:///b", "?", "a:///b?" }, { "a:/b", "//", "a://" }, { "a:/b/../c/.", "#f", "a:/b/../c/.#f" }, { "a:/b/../c/.", "d", "a:/c/d" },
    { "a:/b", ".//c", "a://c" }, { "a:/b/c", "%2e%2E/d", "a:/b/%2e%2E/d" }, { "a:b/c", "../../d", "a:/d" }, { "a:../b", "c", "a:c" },
    { "a:b", "../c", "a:c" }, { "a:b", "./", "a:" }, { "a:b", "c:../d", "c:d" }, { "a:b", "c://d/../e/.", "c://d/e/" },
    { "a:/b//c", "../d", "a:/b/d" }, { "a:/b", "/..//..", "a:/" }, { "a:b", "c/..", "a:/" },
    { "a:/b/c", "%2e/d", "a:/b/%2e/d" }, { "a:b", "//h/../c/.", "a://h/c/" }, { "a:b", "///..//c", "a:////c" },
    { "A+-.1://u:p@[::1]:8/%41", "", "A+-.1://u:p@[::1]:8/%41" },
};
enum { EXAMPLES = sizeof examples / sizeof *examples, ROWS = EXAMPLES + sizeof rows / sizeof *rows };

/* No URIs, though some are references; and no references. */
static const char *const bad_bases[] = {
    "", "b", "/", "//h/b", "?q", "#f", "1:b", ":b", "a_:b", "a:b#c#d", "a:[", "a://[", "a://h:p", "a:b c", "a:%4", "a:b\\",
};
static const char *const bad_references[] = { "1:b", ":", "b#c#d", "[", "//[", "//h:p", "b c", "%4g", "\\b", "<b>", "\303\244" };
enum { BAD_BASES = sizeof bad_bases / sizeof *bad_bases, BAD_REFERENCES = sizeof bad_references / sizeof *bad_references };

static const char *base_of(size_t row) { return row < EXAMPLES ? rfc_base : rows[row - EXAMPLES].base; }
static const char *reference_of(size_t row) { return row < EXAMPLES ? examples[row].reference : rows[row - EXAMPLES].reference; }
static const char *result_of(size_t row) { return row < EXAMPLES ? examples[row].result : rows[row - EXAMPLES].result; }

static int failures;

/* Shows the first failure alone: one slip makes many wrong answers. */
static void expect(int holds, const char *what, const char *text, const char *base, size_t room)
{
    if (!holds && failures++ == 0)
        printf("resolve: %s, on \"%.60s\", in room for %zu: %.60s\n", what, base, room, text);
}

static const uint8_t *octets(const char *text)
{
    return (const uint8_t *)text;
}

/* The output of a call, which is lent with other octets behind it. */
static uint8_t out[OCTETS], unused[OCTETS];

static uint8_t *fresh(void)
{
    memset(unused, UNUSED, OCTETS);
    return memcpy(out, unused, OCTETS);
}

/* What is due in that room: the octets, or the number of the refusal, which comes before the one for the room. */
static void expect_out(capstan_length_answer a, const char *due, size_t refused, size_t room, const char *text, const char *base)
{
    const size_t len = due == NULL ? 0 : strlen(due), fits = due != NULL && len <= room;
    const size_t number = fits ? CAPSTAN_DONE : due != NULL ? CAPSTAN_NO_OUTPUT_ROOM : refused, length = fits ? len : 0;

    expect(a.number == number && a.length == length, "the answer", text, base, room);
    if (length > 0)
        expect(memcmp(out, due, length) == 0, "the octets", text, base, room);
    expect(memcmp(out + length, unused, OCTETS - length) == 0, "what was lent is changed", text, base, room);
}

static void test_reference(const char *reference, const char *base, const char *result, size_t refused)
{
    for (size_t room = 0; room <= 40; room++) {
        const capstan_length_answer a = capstan_resolve(octets(reference), strlen(reference), octets(base), strlen(base), fresh(), room);
        expect_out(a, result, refused, room, reference, base);
    }
}

typedef struct { capstan_read_answer answer; size_t links[LINK_SLOTS], params[PARAM_SLOTS]; } reading;
static reading table;

static void read_text(size_t edition, const char *text)
{
    memset(&table, 0, sizeof table);
    table.answer = capstan_read(edition, octets(text), strlen(text), table.links, LINK_SLOTS, table.params, PARAM_SLOTS);
    expect(table.answer.number == CAPSTAN_DONE, "it is read", text, "", 0);
}

static capstan_length_answer context_of(size_t edition, const char *text, const char *base, size_t link, size_t room)
{
    return capstan_resolved_context(edition, octets(text), strlen(text), octets(base), strlen(base), table.links, LINK_SLOTS, table.params,
                                    PARAM_SLOTS, table.answer.links, table.answer.params, link, fresh(), room);
}

/* The link stands alone, and behind one of another context; an unknown edition and a link that isn't there are refused in each room. */
static void test_context(size_t edition, const char *params, const char *base, const char *context, size_t refused)
{
    static const char *const before[] = { "<a>", "<b>;anchor=c, <a>" };
    char text[OCTETS];

    for (size_t i = 0; i < 2; i++) {
        const size_t len = context == NULL ? 8 : strlen(context), rooms[] = { len + 2, len + 1, len, len > 0 ? len - 1 : 0, 0 };
        snprintf(text, sizeof text, "%s%s", before[i], params);
        read_text(edition, text);
        for (size_t room = 0; room < sizeof rooms / sizeof *rooms; room++) {
            expect_out(context_of(edition, text, base, i, rooms[room]), context, refused, rooms[room], text, base);
            expect_out(context_of(edition, text, base, i + 1, rooms[room]), NULL, CAPSTAN_NO_SUCH_LINK, rooms[room], text, base);
            expect_out(context_of(edition, text, base, SIZE_MAX, rooms[room]), NULL, CAPSTAN_NO_SUCH_LINK, rooms[room], text, base);
            expect_out(context_of(edition + 2, text, base, i, rooms[room]), NULL, CAPSTAN_UNKNOWN_EDITION, rooms[room], text, base);
        }
    }
}

/* An `anchor` in quotes, with a backslash before one octet, or before each up to there. */
static void test_anchor(size_t edition, const char *reference, const char *base, const char *context, size_t refused)
{
    char params[OCTETS];

    for (size_t i = 0; i < 2 * (strlen(reference) + 1); i++) {
        size_t len = (size_t)snprintf(params, sizeof params, ";x;%s=\"", i % 2 ? "anchor" : "Anchor");
        for (size_t at = 0; reference[at] != 0; at++) {
            if (reference[at] == '\\' || (i % 2 ? at < i / 2 : at == i / 2))
                params[len++] = '\\';
            params[len++] = reference[at];
        }
        memcpy(params + len, "\"", 2);
        test_context(edition, params, base, context, refused);
    }
}

/* Without a reference it is the base without its fragment, whose dots stay. */
static void test_no_reference(size_t edition)
{
    static const char *const params[] = { "", ";anchor", ";ANCHOR=\"\"", ";anchor;anchor=b", ";anchors=b;ancho=c" };
    static const char *const bases[][2] = {
        { "a:b", "a:b" }, { "a:b#", "a:b" }, { "a:?#c/?", "a:?" }, { "a:#", "a:" }, { "http://h/../b/./?q#f", "http://h/../b/./?q" },
    };

    for (size_t i = 0; i < 5; i++) {
        for (size_t base = 0; base < 5; base++) test_context(edition, params[i], bases[base][0], bases[base][1], 0);
        for (size_t base = 0; base < BAD_BASES; base++) test_context(edition, params[i], bad_bases[base], NULL, CAPSTAN_BAD_BASE);
    }
}

/* What can be wrong with a call, in the order of the numbers. */
enum { EDITION, LONG_TEXT, LONG_BASE, TABLE, LINK, BASE, REFERENCE, RESULT, ROOM, KINDS };
static const size_t numbers[KINDS] = {
    CAPSTAN_UNKNOWN_EDITION, CAPSTAN_TOO_LONG, CAPSTAN_TOO_LONG, CAPSTAN_BAD_TABLE, CAPSTAN_NO_SUCH_LINK, CAPSTAN_BAD_BASE,
    CAPSTAN_BAD_REFERENCE, CAPSTAN_TOO_LONG, CAPSTAN_NO_OUTPUT_ROOM,
};

static uint8_t long_text[CAPSTAN_LIMIT + 1], long_base[CAPSTAN_LIMIT + 1], long_out[CAPSTAN_LIMIT + 2];

static int has(const size_t wrong[2], size_t kind)
{
    return wrong[0] == kind || wrong[1] == kind;
}

/* A base that ends with a slash, and its length; behind the longest a reference of two octets makes too long a result. */
static size_t make_base(const size_t wrong[2])
{
    const size_t length = has(wrong, LONG_BASE) ? CAPSTAN_LIMIT + 1 : has(wrong, RESULT) ? CAPSTAN_LIMIT - 1 : 8;

    memset(long_base, 'b', length);
    memcpy(long_base, has(wrong, BASE) ? "1:/" : "a:/", 3);
    long_base[length - 1] = '/';
    return length;
}

static void expect_first(capstan_length_answer a, const size_t wrong[2], const char *what)
{
    int held = 1;

    for (size_t i = 0; i < sizeof long_out; i++) held = held && long_out[i] == UNUSED;
    if ((a.number != numbers[wrong[0]] || a.length != 0 || !held) && failures++ == 0)
        printf("resolve: %s with kinds %zu and %zu wrong is answered %zu, and the output is %s\n", what, wrong[0], wrong[1], a.number,
               held ? "as it was" : "changed");
}

static void test_first(size_t edition, const size_t wrong[2])
{
    const size_t base_len = make_base(wrong), text_len = has(wrong, LONG_TEXT) ? CAPSTAN_LIMIT + 1 : 8;
    const size_t room = has(wrong, ROOM) ? 9 : sizeof long_out, links[] = { 0, 6, 0, 1 };
    const size_t params[] = { 0, 6, 6, 8, has(wrong, TABLE) ? 4 : CAPSTAN_QUOTED, CAPSTAN_ANCHOR };

    memset(long_text, 'a', sizeof long_text);
    memset(long_out, UNUSED, sizeof long_out);
    memcpy(long_text, has(wrong, REFERENCE) ? "anchorc[" : "anchorcc", 8);
    const capstan_length_answer c = capstan_resolved_context(has(wrong, EDITION) ? SIZE_MAX : edition, long_text, text_len, long_base,
                                                             base_len, links, CAPSTAN_LINK_SLOTS, params, CAPSTAN_PARAM_SLOTS, 1, 1,
                                                             has(wrong, LINK), long_out, room);
    expect_first(c, wrong, "a context");
    if (has(wrong, EDITION) || has(wrong, TABLE) || has(wrong, LINK))
        return;
    const size_t reference_len = has(wrong, LONG_TEXT) ? CAPSTAN_LIMIT + 1 : 2;
    memmove(long_text, long_text + 6, sizeof long_text - 6);
    const capstan_length_answer a = capstan_resolve(long_text, reference_len, long_base, base_len, long_out, room);
    expect_first(a, wrong, "a reference");
}

static void expect_length(const char *reference, size_t again, const char *base, size_t base_again, size_t number, size_t length)
{
    const size_t before = strlen(reference), base_before = strlen(base);

    memset(long_text, 'a', sizeof long_text);
    memset(long_base, 'b', sizeof long_base);
    memset(long_out, UNUSED, sizeof long_out);
    memcpy(long_text, reference, before);
    memcpy(long_base, base, base_before);
    const capstan_length_answer a = capstan_resolve(long_text, before + again, long_base, base_before + base_again, long_out,
                                                    CAPSTAN_LIMIT);
    expect(a.number == number && a.length == length && long_out[length] == UNUSED, "a length", reference, base, before + again);
    expect(length == 0 || long_out[length - 1] != UNUSED, "its last octet", reference, base, before + again);
}

/* About the limit: inputs, and results of shorter ones. */
static void test_lengths(void)
{
    for (size_t over = 0; over < 2; over++) {
        const size_t number = over ? CAPSTAN_TOO_LONG : CAPSTAN_DONE, most = over ? 0 : CAPSTAN_LIMIT;
        expect_length("c:", CAPSTAN_LIMIT - 2 + over, "a:", 1, number, most);
        expect_length("", 0, "a:", CAPSTAN_LIMIT - 2 + over, number, most);
        expect_length("/", 1, "a:", CAPSTAN_LIMIT - 2 + over, number, over ? 0 : 4);
        expect_length("/", CAPSTAN_LIMIT - 3 + over, "a:b", 0, number, most);
        expect_length("//", CAPSTAN_LIMIT - 4 + over, "a:b", 0, number, most);
        expect_length("?", CAPSTAN_LIMIT - 4 + over, "a:b?c", 0, number, most);
        expect_length("", CAPSTAN_LIMIT - 5 + over, "a://", 0, number, most);
        expect_length("", 4000, "a://", CAPSTAN_LIMIT - 4005 + over, number, most);
        expect_length("./x/../", CAPSTAN_LIMIT - 7, over ? "a:/bbbb/c" : "a:/bbb/c", 0, number, most);
    }
}

/* The paths of both make more than the limit, and hardly anything is left of them. */
static void test_up(void)
{
    const size_t ups = 2700;

    for (size_t i = 0; i < CAPSTAN_LIMIT; i++) {
        long_base[i] = (uint8_t)(i < 3 ? "a:/"[i] : i % 2 ? 'b' : '/');
        long_text[i] = (uint8_t)"../"[i % 3];
    }
    memset(long_out, UNUSED, sizeof long_out);
    const capstan_length_answer a = capstan_resolve(long_text, 3 * ups, long_base, 3 + 2 * ups, long_out, 4);
    expect(a.number == CAPSTAN_DONE && a.length == 3 && memcmp(long_out, "a:/M", 4) == 0, "up to the root", "../", "a:/b/", 4);
    const capstan_length_answer b = capstan_resolve(long_text, 3 * ups - 3, long_base, 3 + 2 * ups, long_out, 5);
    expect(b.number == CAPSTAN_DONE && b.length == 5 && memcmp(long_out, "a:/b/M", 6) == 0, "up to the first segment", "../", "a:/b/", 5);
}

int main(void)
{
    for (size_t row = 0; row < ROWS; row++) test_reference(reference_of(row), base_of(row), result_of(row), 0);
    for (size_t i = 0; i < BAD_REFERENCES; i++) {
        test_reference(bad_references[i], "a:b", NULL, CAPSTAN_BAD_REFERENCE);
        for (size_t base = 0; base < BAD_BASES; base++) test_reference(bad_references[i], bad_bases[base], NULL, CAPSTAN_BAD_BASE);
    }
    for (size_t base = 0; base < BAD_BASES; base++) test_reference("c", bad_bases[base], NULL, CAPSTAN_BAD_BASE);
    test_lengths();
    test_up();
    for (size_t edition = 0; edition < EDITIONS; edition++) {
        for (size_t row = 0; row < ROWS; row++) test_anchor(edition, reference_of(row), base_of(row), result_of(row), 0);
        for (size_t i = 0; i < BAD_REFERENCES; i++) {
            test_anchor(edition, bad_references[i], "a:b", NULL, CAPSTAN_BAD_REFERENCE);
            test_anchor(edition, bad_references[i], "b", NULL, CAPSTAN_BAD_BASE);
        }
        test_no_reference(edition);
        for (size_t i = 0; i < KINDS * KINDS; i++) {
            const size_t wrong[] = { i / KINDS, i % KINDS };
            if (wrong[0] <= wrong[1])
                test_first(edition, wrong);
        }
    }
    test_context(CAPSTAN_RFC5988, ";anchor=/c/../d?e", "a://h/b", "a://h/d?e", 0);
    test_context(CAPSTAN_RFC5988, ";anchor={}", "a:b", NULL, CAPSTAN_BAD_REFERENCE);
    return failures != 0;
}
