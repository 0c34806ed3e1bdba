/* What each edition reads, asks and writes: where they differ, and that nothing else does. Unknown ones stand in untouched.c. */
#include "capstan.h"

#include <stdio.h>
#include <string.h>

enum { OCTETS = 128, LINK_SLOTS = 4 * CAPSTAN_LINK_SLOTS, PARAM_SLOTS = 4 * CAPSTAN_PARAM_SLOTS, EDITIONS = 2, UNUSED = 77 };

/* Who has which octets bare in a value: both editions, or the older one alone. */
static const char token_octets[] = "abcdefghijklmnopqrstuvwxyzABCDEFGHIJKLMNOPQRSTUVWXYZ0123456789!#$%&'*+-.^_`|~";
static const char wider_octets[] = "()/:<=>?@[]{}";

/*
 * By hand, of headers that the newer edition finds malformed at that place: the links, the parameters' records as the older edition
 * reads them, SIZE_MAX behind the last of fewer than three, and what it writes; null where a link has no relation.
 */
static const struct { const char *header; size_t place, links, params[3][CAPSTAN_PARAM_SLOTS]; const char *written; } rows[] = {
    { "<a>;rel=a/b", 9, 1, { { 4, 7, 8, 11, 3, 1 }, { SIZE_MAX } }, "<a>; rel=\"a/b\"" },
    { "<a>;x==", 6, 1, { { 4, 5, 6, 7, 3, 0 }, { SIZE_MAX } }, NULL },
    { "<a>;x=<b>", 6, 1, { { 4, 5, 6, 9, 3, 0 }, { SIZE_MAX } }, NULL },
    { "<a>;x = /,<b>", 8, 2, { { 4, 5, 8, 9, 3, 0 }, { SIZE_MAX } }, NULL },
    { "<a>;x==y=;rel=z", 6, 1, { { 4, 5, 6, 9, 3, 0 }, { 10, 13, 14, 15, 1, 1 }, { SIZE_MAX } }, "<a>; x=\"=y=\"; rel=z" },
    { "<a>;rel=http://example.net/foo", 12, 1, { { 4, 7, 8, 30, 3, 1 }, { SIZE_MAX } }, "<a>; rel=\"http://example.net/foo\"" },
    { "<a>;rel=b;rel=c/d", 15, 1, { { 4, 7, 8, 9, 1, 1 }, { SIZE_MAX } }, "<a>; rel=b" },
    { "<a>;rel=b;anchor=/c;t=\"d\"", 17, 1, { { 4, 7, 8, 9, 1, 1 }, { 10, 16, 17, 19, 3, 2 }, { 20, 21, 23, 24, 2, 0 } },
      "<a>; rel=b; anchor=\"/c\"; t=d" },
};
enum { ROWS = sizeof rows / sizeof *rows };

/* Headers, also wrong ones, of which both editions say the same. */
static const char *const alike[] = {
    "", ",, ,", "</terms>; rel=\"copyright\"; anchor=\"#foo\"", "<>;x", "<a>;REL=Next;rel=prev", "<a>;rel=\"ne\\xt\"", "<a>;t=\"b,c\"",
    "<a,b>", ",<a>", "<a>;x=\"(/:<=>?@[]{})\"", "<a>;rel=next;", "<a> <b>", "<a%4g>", "<a>;x=,<b>", "<a>;t=\"b", "<a>;x=", "<a>;x=a\"",
    "<a>;x=\"a\"/", "<a>;x/y=z", "<a>;x/", "<a>;x=a\\b", "<a>;x=;y", "<a>;x=a b", "<a>/", "<a>=",
};
enum { ALIKE = sizeof alike / sizeof *alike };

typedef struct { capstan_read_answer answer; size_t links[LINK_SLOTS], params[PARAM_SLOTS]; } reading;

static int failures;

/* Shows the first failure alone: one slip makes many wrong answers. */
static void expect(int holds, size_t edition, const uint8_t *octets, size_t len, const char *what)
{
    if (holds || failures++ > 0)
        return;
    printf("editions: %s, in edition %zu: ", what, edition);
    for (size_t i = 0; i < len && i < OCTETS; i++) putchar(octets[i] > 32 && octets[i] < 127 ? octets[i] : '.');
    putchar('\n');
}

static reading read_in(size_t edition, const uint8_t *header, size_t len)
{
    reading r;

    for (size_t i = 0; i < LINK_SLOTS; i++) r.links[i] = UNUSED;
    for (size_t i = 0; i < PARAM_SLOTS; i++) r.params[i] = UNUSED;
    r.answer = capstan_read(edition, header, len, r.links, LINK_SLOTS, r.params, PARAM_SLOTS);
    return r;
}

static int same(const reading *a, const reading *b)
{
    return memcmp(a, b, sizeof *a) == 0;
}

static int refused_at(const reading *r, size_t place)
{
    return r->answer.number == CAPSTAN_MALFORMED && r->answer.place == place && r->answer.links == 0 && r->answer.params == 0
        && r->links[0] == UNUSED && r->params[0] == UNUSED;
}

static size_t number_of_search(size_t edition, const uint8_t *text, size_t len, const reading *r, const char *relation)
{
    return capstan_search(edition, text, len, r->links, LINK_SLOTS, r->params, PARAM_SLOTS, r->answer.links, r->answer.params,
                          (const uint8_t *)relation, strlen(relation)).number;
}

static capstan_length_answer write_in(size_t edition, const uint8_t *text, size_t len, const reading *r, uint8_t *out)
{
    return capstan_write(edition, text, len, r->links, LINK_SLOTS, r->params, PARAM_SLOTS, r->answer.links, r->answer.params, out,
                         OCTETS);
}

/* The header in two parts, cut at each place: finished as it is read whole, and refused by the feed that has the octet at its place. */
static void test_feeds(size_t edition, const uint8_t *header, size_t len)
{
    static uint8_t buffer[CAPSTAN_LIMIT];
    const reading whole = read_in(edition, header, len);
    const int wrong = whole.answer.number == CAPSTAN_MALFORMED;

    for (size_t cut = 0; cut <= len; cut++) {
        const size_t cuts[] = { 0, cut, len };
        capstan_feeding state = capstan_start(edition);
        for (size_t part = 0; part < 2; part++) {
            const size_t start = cuts[part], end = cuts[part + 1];
            const int refused = wrong && whole.answer.place < end;
            const capstan_feed_answer f = capstan_feed(state, header + start, end - start, buffer, sizeof buffer);
            expect(f.number == (refused ? CAPSTAN_MALFORMED : CAPSTAN_DONE), edition, header, end, "a feed");
            expect(f.place == (refused ? whole.answer.place : 0), edition, header, end, "a feed's place");
            expect(f.next.edition == edition, edition, header, end, "a feed's edition");
            state = f.next;
        }
        reading r = read_in(edition, header, 0);
        r.answer = capstan_finish(state, buffer, sizeof buffer, r.links, LINK_SLOTS, r.params, PARAM_SLOTS);
        expect(same(&r, &whole), edition, header, len, "a finish");
    }
}

/* What is written reads in both editions to the same records, which are written so again. */
static void test_written(size_t edition, const uint8_t *header, size_t len, const reading *r, const char *form)
{
    uint8_t out[OCTETS], again[OCTETS];
    const capstan_length_answer w = write_in(edition, header, len, r, out);

    if (form == NULL) {
        expect(w.number == CAPSTAN_NO_RELATION && w.length == 0, edition, header, len, "written without a relation");
        return;
    }
    expect(w.number == CAPSTAN_DONE && w.length == strlen(form) && memcmp(out, form, w.length) == 0, edition, header, len, "written");
    const reading newer = read_in(CAPSTAN_RFC8288, out, w.length), older = read_in(CAPSTAN_RFC5988, out, w.length);
    expect(newer.answer.number == CAPSTAN_DONE && same(&newer, &older), edition, out, w.length, "what was written is read");
    expect(newer.answer.links == r->answer.links && newer.answer.params == r->answer.params, edition, out, w.length, "counts");
    const capstan_length_answer w_again = write_in(CAPSTAN_RFC8288, out, w.length, &newer, again);
    expect(w_again.length == w.length && memcmp(again, out, w.length) == 0, edition, out, w.length, "written again");
}

/* The value's meaning is its octets: none of these has a backslash. */
static void test_values(const uint8_t *header, size_t len, const reading *r)
{
    for (size_t number = 0, param = 0; number < r->answer.links; number++) {
        for (size_t place = 0; place < r->links[CAPSTAN_LINK_SLOTS * number + 3]; place++, param++) {
            const size_t *record = r->params + CAPSTAN_PARAM_SLOTS * param;
            const size_t length = record[3] - record[2];
            uint8_t out[OCTETS];
            const capstan_length_answer v = capstan_value(CAPSTAN_RFC5988, header, len, r->links, LINK_SLOTS, r->params, PARAM_SLOTS,
                                                          r->answer.links, r->answer.params, number, place, out, length);
            expect(v.number == CAPSTAN_DONE && v.length == length && memcmp(out, header + record[2], length) == 0, CAPSTAN_RFC5988,
                   header, len, "a value");
        }
    }
}

static int has_wider(const reading *r)
{
    for (size_t i = 0; i < r->answer.params; i++)
        if (r->params[CAPSTAN_PARAM_SLOTS * i + 4] == CAPSTAN_WIDER)
            return 1;
    return 0;
}

/* Whatever is asked, and though there is no such link. */
static void expect_bad(size_t edition, const uint8_t *text, size_t len, const reading *r, const char *what)
{
    uint8_t out[OCTETS];
    const capstan_context_answer c = capstan_context(edition, text, len, text, len, r->links, LINK_SLOTS, r->params, PARAM_SLOTS,
                                                     r->answer.links, r->answer.params, SIZE_MAX);
    const capstan_length_answer v = capstan_value(edition, text, len, r->links, LINK_SLOTS, r->params, PARAM_SLOTS, r->answer.links,
                                                  r->answer.params, SIZE_MAX, 0, out, 0);

    expect(number_of_search(edition, text, len, r, "") == CAPSTAN_BAD_TABLE, edition, text, len, what);
    expect(c.number == CAPSTAN_BAD_TABLE && c.source == CAPSTAN_NO_SOURCE && c.end == 0, edition, text, len, what);
    expect(v.number == CAPSTAN_BAD_TABLE && v.length == 0, edition, text, len, what);
    expect(write_in(edition, text, len, r, out).number == CAPSTAN_BAD_TABLE, edition, text, len, what);
}

static void test_row(size_t row)
{
    const uint8_t *header = (const uint8_t *)rows[row].header;
    const size_t len = strlen(rows[row].header);
    const reading newer = read_in(CAPSTAN_RFC8288, header, len), older = read_in(CAPSTAN_RFC5988, header, len);
    size_t params = 0;

    while (params < 3 && rows[row].params[params][0] != SIZE_MAX) params++;
    expect(refused_at(&newer, rows[row].place), CAPSTAN_RFC8288, header, len, "refused");
    expect(older.answer.number == CAPSTAN_DONE && older.answer.place == 0 && older.answer.links == rows[row].links
               && older.answer.params == params,
           CAPSTAN_RFC5988, header, len, "read");
    expect(memcmp(older.params, rows[row].params, params * CAPSTAN_PARAM_SLOTS * sizeof(size_t)) == 0
               && older.params[params * CAPSTAN_PARAM_SLOTS] == UNUSED,
           CAPSTAN_RFC5988, header, len, "records");
    test_written(CAPSTAN_RFC5988, header, len, &older, rows[row].written);
    test_values(header, len, &older);
    for (size_t edition = 0; edition < EDITIONS; edition++) test_feeds(edition, header, len);
    if (has_wider(&older))
        expect_bad(CAPSTAN_RFC8288, header, len, &older, "a table of the older edition");
    else
        expect(number_of_search(CAPSTAN_RFC8288, header, len, &older, "b") == CAPSTAN_DONE, CAPSTAN_RFC8288, header, len, "asked");
}

static void test_alike(const uint8_t *header, size_t len)
{
    const reading newer = read_in(CAPSTAN_RFC8288, header, len), older = read_in(CAPSTAN_RFC5988, header, len);
    uint8_t newer_out[OCTETS] = { 0 }, older_out[OCTETS] = { 0 };

    expect(same(&newer, &older), CAPSTAN_RFC5988, header, len, "read otherwise");
    for (size_t edition = 0; edition < EDITIONS; edition++) test_feeds(edition, header, len);
    if (newer.answer.number != CAPSTAN_DONE)
        return;
    const capstan_length_answer a = write_in(CAPSTAN_RFC8288, header, len, &newer, newer_out);
    const capstan_length_answer b = write_in(CAPSTAN_RFC5988, header, len, &newer, older_out);
    expect(a.number == b.number && a.length == b.length && memcmp(newer_out, older_out, OCTETS) == 0, CAPSTAN_RFC5988, header, len,
           "written otherwise");
}

static int is_in(const char *set, int octet)
{
    return octet != 0 && strchr(set, octet) != NULL;
}

/* Each octet as a value, and before, between and behind others: which edition reads it bare, and in which form. */
static void test_each_octet(void)
{
    static const char *const around[][2] = { { "", "" }, { "", "a" }, { "a", "" }, { "a", "b" }, { "%~", "%~" } };

    for (int octet = 0; octet < 256; octet++) {
        for (size_t i = 0; i < sizeof around / sizeof *around; i++) {
            uint8_t header[OCTETS] = "<a>;x=";
            const size_t before = strlen(around[i][0]), behind = strlen(around[i][1]), len = 7 + before + behind;
            memcpy(header + 6, around[i][0], before);
            header[6 + before] = (uint8_t)octet;
            memcpy(header + 7 + before, around[i][1], behind);

            const reading newer = read_in(CAPSTAN_RFC8288, header, len), older = read_in(CAPSTAN_RFC5988, header, len);
            const int token = is_in(token_octets, octet), wider = is_in(wider_octets, octet);
            const size_t record[] = { 4, 5, 6, len, token ? CAPSTAN_TOKEN : CAPSTAN_WIDER, CAPSTAN_OTHER_NAME };
            if (token || wider)
                expect(older.answer.number == CAPSTAN_DONE && memcmp(older.params, record, sizeof record) == 0, CAPSTAN_RFC5988, header,
                       len, "a bare value");
            if (wider)
                expect(refused_at(&newer, 6 + before), CAPSTAN_RFC8288, header, len, "a bare value");
            else
                test_alike(header, len);
        }
    }
}

/* A table of one parameter, of each value in each form: in which editions it is good. */
static void test_forms(void)
{
    enum { NEITHER, OLDER, BOTH };
    static const struct { const char *value; int good[4]; } values[] = {
        { "", { BOTH, NEITHER, BOTH, NEITHER } },
        { "a", { NEITHER, BOTH, BOTH, NEITHER } },
        { "!#$%&'*+-.^_`|~", { NEITHER, BOTH, BOTH, NEITHER } },
        { "/", { NEITHER, NEITHER, BOTH, OLDER } },
        { "a/b", { NEITHER, NEITHER, BOTH, OLDER } },
        { "(/:<=>?@[]{})", { NEITHER, NEITHER, BOTH, OLDER } },
        { "a b", { NEITHER, NEITHER, BOTH, NEITHER } },
        { "a/ ", { NEITHER, NEITHER, BOTH, NEITHER } },
        { ",/", { NEITHER, NEITHER, BOTH, NEITHER } },
        { "/;", { NEITHER, NEITHER, BOTH, NEITHER } },
        { "\\/", { NEITHER, NEITHER, BOTH, NEITHER } },
        { "/\200", { NEITHER, NEITHER, BOTH, NEITHER } },
        { "/\\", { NEITHER, NEITHER, NEITHER, NEITHER } },
        { "/\"", { NEITHER, NEITHER, NEITHER, NEITHER } },
        { "/\177", { NEITHER, NEITHER, NEITHER, NEITHER } },
    };
    static const size_t forms[] = { 0, 1, 2, 3, 4, 5, 255, 256, 259, SIZE_MAX };

    for (size_t i = 0; i < sizeof values / sizeof *values; i++) {
        uint8_t text[OCTETS] = "rel";
        const size_t len = 3 + strlen(values[i].value);
        memcpy(text + 3, values[i].value, len - 3);
        for (size_t j = 0; j < EDITIONS * sizeof forms / sizeof *forms; j++) {
            const size_t edition = j % EDITIONS, form = forms[j / EDITIONS];
            const reading r = { { CAPSTAN_DONE, 0, 1, 1 }, { 0, 3, 0, 1 }, { 0, 3, 3, len, form, CAPSTAN_REL } };
            const int whose = form <= CAPSTAN_WIDER ? values[i].good[form] : NEITHER;
            if (whose == BOTH || (whose == OLDER && edition == CAPSTAN_RFC5988))
                expect(number_of_search(edition, text, len, &r, "") == CAPSTAN_NOT_FOUND, edition, text, len, "a good table");
            else
                expect_bad(edition, text, len, &r, "a bad table");
        }
    }
}

/* A relation and an anchor that stand bare in the older edition alone are found as any other. */
static void test_asked(void)
{
    static const char text[] = "<a>;rel=x/y,<b>;rel=HTTP://Example.net/Foo;anchor=/c?d";
    const uint8_t *header = (const uint8_t *)text;
    const size_t len = sizeof text - 1;
    const reading r = read_in(CAPSTAN_RFC5988, header, len);
    const char *relation = "http://example.NET/foo";
    const capstan_search_answer s = capstan_search(CAPSTAN_RFC5988, header, len, r.links, LINK_SLOTS, r.params, PARAM_SLOTS,
                                                   r.answer.links, r.answer.params, (const uint8_t *)relation, strlen(relation));
    const capstan_context_answer c = capstan_context(CAPSTAN_RFC5988, header, len, header, 0, r.links, LINK_SLOTS, r.params, PARAM_SLOTS,
                                                     r.answer.links, r.answer.params, s.link);

    expect(s.number == CAPSTAN_DONE && s.link == 1, CAPSTAN_RFC5988, header, len, "searched");
    expect(c.number == CAPSTAN_DONE && c.source == CAPSTAN_TEXT && c.start == len - 4 && c.end == len, CAPSTAN_RFC5988, header, len,
           "the context");
    expect(number_of_search(CAPSTAN_RFC5988, header, len, &r, "x") == CAPSTAN_NOT_FOUND, CAPSTAN_RFC5988, header, len, "not found");
}

int main(void)
{
    for (size_t row = 0; row < ROWS; row++) test_row(row);
    for (size_t i = 0; i < ALIKE; i++) test_alike((const uint8_t *)alike[i], strlen(alike[i]));
    test_each_octet();
    test_forms();
    test_asked();
    return failures != 0;
}
