/*
 * Targets are references by RFC 3986's grammar, or the header is malformed where the target starts: read whole, fed in parts, and in
 * tables. Nothing else is judged so.
 */
#include "capstan.h"

#include <stdio.h>
#include <string.h>

enum { LINK_SLOTS = 2 * CAPSTAN_LINK_SLOTS, PARAM_SLOTS = 2 * CAPSTAN_PARAM_SLOTS, OCTETS = 128, EDITIONS = 2, UNUSED = 77 };

/* Where a header is malformed, and how many octets must be fed before a feed says so: cut short, no feed does. No fault: both are 0. */
typedef struct { size_t place, told; } fault;
#define UNTOLD SIZE_MAX

/* By hand: a header and its fault in each edition. */
static const struct { const char *header; fault in[EDITIONS]; } rows[] = {
    { "<1:a>", { { 1, 5 }, { 1, 5 } } },
    { "<1:a", { { 4, UNTOLD }, { 4, UNTOLD } } },
    { "<1:a b>", { { 4, 5 }, { 4, 5 } } },
    { "<a%4>", { { 4, 5 }, { 4, 5 } } },
    { "<1:a%4>", { { 6, 7 }, { 6, 7 } } },
    { "<1:a><", { { 1, 5 }, { 1, 5 } } },
    { "<1:a>;;", { { 1, 5 }, { 1, 5 } } },
    { "<a>,<1:a>;", { { 5, 9 }, { 5, 9 } } },
    { "<a>,<1:a>,<a#b#c>", { { 5, 9 }, { 5, 9 } } },
    { "<a>;;<1:a>", { { 4, 5 }, { 4, 5 } } },
    { "<a> <1:a>", { { 4, 5 }, { 4, 5 } } },
    { "<a#b#c>", { { 1, 7 }, { 1, 7 } } },
    { "<>", { { 0, 0 }, { 0, 0 } } },
    { "<a>;x=\"<1:a>\"", { { 0, 0 }, { 0, 0 } } },
    { "<a>;x=<1:a>", { { 6, 7 }, { 0, 0 } } },
    { "<a>;anchor=\"1:a\"", { { 0, 0 }, { 0, 0 } } },
    { "<a>;anchor=1:a", { { 12, 13 }, { 0, 0 } } },
    { "<1:a>;anchor=1:a", { { 1, 5 }, { 1, 5 } } },
    { "<a>;x=/,<1:a>", { { 6, 7 }, { 9, 13 } } },
};
enum { ROWS = sizeof rows / sizeof *rows };

/* Some of each part of the grammar, */
static const char *const references[] = {
    "", "a", "1", "a/1:b", "./1:a", "/1:a", "//", "///a", "a;b=c,d", "%41", "a:", "a:b:c", "A+-.1:b", "a://", "mailto:a@b", "?", "#",
    "?/?:@", "a?b#c", "//a", "//a:", "//a:80/b", "//u:p@h:1", "//1.2.3.4", "//256.1.1.1", "//%41:1", "//[::]", "//[::1]:8/", "//[1::8]",
    "//[1:2:3:4:5:6:7:8]", "//[1:2:3:4:5:6:7::]", "//[1:2:3:4:5:6::8]", "//[::2:3:4:5:6:7:8]", "//[1:2:3:4:5:6:1.2.3.4]",
    "//[::255.255.255.255]", "//[1:2:3:4:5::0.10.200.249]", "//u@[::1]?a", "//[v1.a:b]", "//[VAf.!$]:1",
};
/* and octets that are none, though nearly. */
static const char *const others[] = {
    "1:a", ":", "a_b:c", "%61:b", "@:a", "1:a/b", "a#b#c", "##", "[", "a[b]", "?[", "#]", "a:[b]", "//a:b", "//a:1:2", "//a@b@c",
    "//a[::1]", "//[", "//[]", "//[:]", "//[::1", "//[::1]a", "//[::1]:a", "//[[::1]]", "//[1:2:3:4:5:6:7]", "//[1:2:3:4:5:6:7:8:9]",
    "//[1:2:3:4:5:6:7:8::]", "//[1:2:3:4:5:6:7::8]", "//[::1::]", "//[:::]", "//[12345::]", "//[g::]", "//[1.2.3.4]", "//[::01.2.3.4]",
    "//[::1.2.3]", "//[::1.2.3.4.5]", "//[::256.1.1.1]", "//[::1.2.3.4:5]", "//[1:2:3:4:5:6:7:1.2.3.4]", "//[v.a]", "//[v1.]", "//[v1a]",
    "//[vg.a]", "//[v1.%41]",
};
enum { REFERENCES = sizeof references / sizeof *references, TARGETS = REFERENCES + sizeof others / sizeof *others };

static const char *target_at(size_t i)
{
    return i < REFERENCES ? references[i] : others[i - REFERENCES];
}

static int failures;

/* Shows the first failure alone: one slip makes many wrong answers. */
static void expect(int holds, const char *what, const char *text, size_t edition, size_t cut)
{
    if (!holds && failures++ == 0)
        printf("references: %s, in edition %zu, cut at %zu: %s\n", what, edition, cut, text);
}

static const uint8_t *octets(const char *text)
{
    return (const uint8_t *)text;
}

typedef struct { capstan_read_answer answer; size_t links[LINK_SLOTS], params[PARAM_SLOTS]; } reading;

static reading unread(void)
{
    reading r = { { 0, 0, 0, 0 }, { 0 }, { 0 } };

    for (size_t i = 0; i < LINK_SLOTS; i++) r.links[i] = UNUSED;
    for (size_t i = 0; i < PARAM_SLOTS; i++) r.params[i] = UNUSED;
    return r;
}

/* The header fed in two parts: a feed is refused just if the fault is told by then, and the finish answers as reading did. */
static void test_feeds(size_t edition, const char *header, fault due, const reading *whole, size_t cut)
{
    static uint8_t buffer[CAPSTAN_LIMIT];
    const size_t len = strlen(header), cuts[] = { 0, cut, len };
    capstan_feeding state = capstan_start(edition);
    reading r = unread();

    for (size_t part = 0; part < 2; part++) {
        const size_t start = cuts[part], end = cuts[part + 1];
        const int told = due.told != 0 && due.told <= end;
        const capstan_feed_answer f = capstan_feed(state, octets(header) + start, end - start, buffer, sizeof buffer);
        expect(f.number == (told ? CAPSTAN_MALFORMED : CAPSTAN_DONE), "a feed", header, edition, cut);
        expect(f.place == (told ? due.place : 0), "a feed's place", header, edition, cut);
        state = f.next;
    }
    r.answer = capstan_finish(state, buffer, sizeof buffer, r.links, LINK_SLOTS, r.params, PARAM_SLOTS);
    expect(memcmp(&r, whole, sizeof r) == 0, "a finish", header, edition, cut);
}

static reading test_header(size_t edition, const char *header, fault due)
{
    const size_t len = strlen(header);
    reading r = unread(), refused = unread();

    r.answer = capstan_read(edition, octets(header), len, r.links, LINK_SLOTS, r.params, PARAM_SLOTS);
    refused.answer.number = CAPSTAN_MALFORMED;
    refused.answer.place = due.place;
    if (due.told == 0)
        expect(r.answer.number == CAPSTAN_DONE && r.answer.place == 0, "it is read", header, edition, len);
    else
        expect(memcmp(&r, &refused, sizeof r) == 0, "it is refused", header, edition, len);
    for (size_t cut = 0; cut <= len; cut++) test_feeds(edition, header, due, &r, cut);
    return r;
}

/* As the first target and as a second one, with something right behind it, nothing, or something wrong. */
static void test_target(size_t edition, const char *target, int right)
{
    static const char *const before[] = { "", "</b>;rel=c , " }, *const behind[] = { "", ";rel=a", " <" };
    char header[OCTETS];

    for (size_t i = 0; i < 6; i++) {
        const size_t start = strlen(before[i % 2]) + 1, end = start + strlen(target);
        const fault unfit = { start, end + 1 }, stuck = { end + 2, end + 3 }, none = { 0, 0 };
        snprintf(header, sizeof header, "%s<%s>%s", before[i % 2], target, behind[i / 2]);
        const reading r = test_header(edition, header, !right ? unfit : i / 2 == 2 ? stuck : none);
        const size_t *link = r.links + CAPSTAN_LINK_SLOTS * (i % 2);
        if (r.answer.number == CAPSTAN_DONE)
            expect(r.answer.links == i % 2 + 1 && link[0] == start && link[1] == end, "its record", header, edition, 0);
    }
}

/* A table made by hand whose second link has the target: good just if that is a reference, which is written as it is. */
static void test_table(size_t edition, const char *target, int right)
{
    char text[OCTETS], form[OCTETS];
    uint8_t value[OCTETS], context[OCTETS], out[OCTETS], unused[OCTETS];
    const size_t len = 4 + strlen(target), links[] = { 3, 4, 0, 1, 4, len, 1, 1 };
    const size_t params[] = { 0, 3, 3, 4, CAPSTAN_TOKEN, CAPSTAN_REL, 0, 3, 3, 4, CAPSTAN_QUOTED, CAPSTAN_REL };

    snprintf(text, sizeof text, "relx%s", target);
    snprintf(form, sizeof form, "<x>; rel=x, <%s>; rel=x", target);
    memset(unused, UNUSED, OCTETS);
    memset(value, UNUSED, OCTETS);
    memset(context, UNUSED, OCTETS);
    memset(out, UNUSED, OCTETS);
    const capstan_search_answer s = capstan_search(edition, octets(text), len, links, LINK_SLOTS, params, PARAM_SLOTS, 2, 2,
                                                   octets("x"), 1);
    const capstan_context_answer c = capstan_context(edition, octets(text), len, octets("base"), 4, links, LINK_SLOTS, params,
                                                     PARAM_SLOTS, 2, 2, 0);
    const capstan_length_answer v = capstan_value(edition, octets(text), len, links, LINK_SLOTS, params, PARAM_SLOTS, 2, 2, 0, 0, value,
                                                  OCTETS);
    const capstan_length_answer w = capstan_write(edition, octets(text), len, links, LINK_SLOTS, params, PARAM_SLOTS, 2, 2, out, OCTETS);
    const capstan_length_answer t = capstan_title(edition, octets(text), len, links, LINK_SLOTS, params, PARAM_SLOTS, 2, 2, 0, out, OCTETS);
    const capstan_length_answer r = capstan_resolved_context(edition, octets(text), len, octets("a:b"), 3, links, LINK_SLOTS, params,
                                                             PARAM_SLOTS, 2, 2, 0, context, OCTETS);
    const size_t number = right ? CAPSTAN_DONE : CAPSTAN_BAD_TABLE;
    expect(r.number == number && r.length == (right ? 3 : 0), "its resolved context", text, edition, 0);
    expect(memcmp(context, "a:b", r.length) == 0 && memcmp(context + r.length, unused, OCTETS - r.length) == 0, "a resolved context", text,
           edition, 0);
    expect(t.number == (right ? CAPSTAN_NOT_FOUND : CAPSTAN_BAD_TABLE) && t.length == 0, "its title", text, edition, 0);
    expect(s.number == number && c.number == number && v.number == number && w.number == number, "a table", text, edition, 0);
    expect(s.link == 0 && c.end == (right ? 4 : 0) && v.length == (size_t)right, "what a table is asked", text, edition, 0);
    expect(w.length == (right ? strlen(form) : 0) && memcmp(out, form, w.length) == 0, "what is written", text, edition, 0);
    expect(memcmp(out + w.length, unused, OCTETS - w.length) == 0 && memcmp(value + v.length, unused, OCTETS - v.length) == 0,
           "what was lent is changed", text, edition, 0);
}

/* The same octets as values, which are not judged; read and then asked, so that the table is judged too. */
static void test_values(size_t edition, const char *value)
{
    static const char *const names[] = { "anchor", "x" };
    const fault none = { 0, 0 };
    char header[OCTETS];

    for (size_t i = 0; i < 2; i++) {
        snprintf(header, sizeof header, "<a>;rel=b;%s=\"%s\"", names[i], value);
        const reading r = test_header(edition, header, none);
        const capstan_search_answer s = capstan_search(edition, octets(header), strlen(header), r.links, LINK_SLOTS, r.params,
                                                       PARAM_SLOTS, r.answer.links, r.answer.params, octets("b"), 1);
        expect(s.number == CAPSTAN_DONE, "a value", header, edition, 0);
    }
}

int main(void)
{
    for (size_t edition = 0; edition < EDITIONS; edition++) {
        for (size_t row = 0; row < ROWS; row++) test_header(edition, rows[row].header, rows[row].in[edition]);
        for (size_t i = 0; i < TARGETS; i++) {
            test_target(edition, target_at(i), i < REFERENCES);
            test_table(edition, target_at(i), i < REFERENCES);
            test_values(edition, target_at(i));
        }
    }
    return failures != 0;
}
