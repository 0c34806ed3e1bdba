/*
 * Each entry's refusals, with their numbers; what is lent is left as it was by a refusal, and past what is used by a success; of a walk,
 * all but what is lent for work. In both editions: nothing read here tells them apart. At last in unknown ones, which are refused before
 * all else.
 */
#include "capstan.h"

#include <stdio.h>
#include <string.h>

enum { LINK_SLOTS = 4 * CAPSTAN_LINK_SLOTS, PARAM_SLOTS = 4 * CAPSTAN_PARAM_SLOTS, OCTETS = 32 };

static uint8_t long_text[CAPSTAN_LIMIT + 1];
static size_t links[LINK_SLOTS], links_before[LINK_SLOTS];
static size_t params[PARAM_SLOTS], params_before[PARAM_SLOTS];
static uint8_t out[OCTETS], out_before[OCTETS];
static size_t edition;
static int failures;

static const uint8_t *octets(const char *s)
{
    return (const uint8_t *)s;
}

static void expect(int holds, const char *what)
{
    if (!holds) {
        printf("untouched: %s\n", what);
        failures++;
    }
}

/* Every slot and octet gets a value that no entry would put there. */
static void fill(void)
{
    for (size_t i = 0; i < LINK_SLOTS; i++) links[i] = SIZE_MAX - i;
    for (size_t i = 0; i < PARAM_SLOTS; i++) params[i] = SIZE_MAX - 100 - i;
    for (size_t i = 0; i < OCTETS; i++) out[i] = (uint8_t)(200 + i);
}

static void keep(void)
{
    memcpy(links_before, links, sizeof links);
    memcpy(params_before, params, sizeof params);
    memcpy(out_before, out, sizeof out);
}

/* The first slots and octets may have changed; the others hold what they held. */
static void expect_kept(size_t link_slots, size_t param_slots, size_t length, const char *what)
{
    expect(memcmp(links + link_slots, links_before + link_slots, (LINK_SLOTS - link_slots) * sizeof *links) == 0, what);
    expect(memcmp(params + param_slots, params_before + param_slots, (PARAM_SLOTS - param_slots) * sizeof *params) == 0, what);
    expect(memcmp(out + length, out_before + length, OCTETS - length) == 0, what);
}

static void read_refused(const uint8_t *header, size_t len, size_t link_slots, size_t param_slots, size_t number, size_t place,
                         const char *what)
{
    fill();
    keep();
    capstan_read_answer r = capstan_read(edition, header, len, links, link_slots, params, param_slots);
    expect(r.number == number && r.place == place && r.links == 0 && r.params == 0, what);
    expect_kept(0, 0, 0, what);
}

static void test_read(void)
{
    const char *two = "<a>;x=1;y=2,<b>;z";
    size_t len = strlen(two);

    memset(long_text, ',', sizeof long_text);
    read_refused(long_text, CAPSTAN_LIMIT + 1, LINK_SLOTS, PARAM_SLOTS, CAPSTAN_TOO_LONG, 0, "read: 8,193 octets");
    read_refused(octets("<a>,<b> <c>"), 11, LINK_SLOTS, PARAM_SLOTS, CAPSTAN_MALFORMED, 8, "read: a link behind a link");
    read_refused(octets("<a>;t=\"b"), 8, LINK_SLOTS, PARAM_SLOTS, CAPSTAN_MALFORMED, 8, "read: cut short");
    read_refused(octets(two), len, 2 * CAPSTAN_LINK_SLOTS - 1, PARAM_SLOTS, CAPSTAN_NO_LINK_ROOM, 0, "read: one link");
    read_refused(octets(two), len, LINK_SLOTS, 3 * CAPSTAN_PARAM_SLOTS - 1, CAPSTAN_NO_PARAM_ROOM, 0, "read: two parameters");
    read_refused(octets(two), len, 0, 0, CAPSTAN_NO_LINK_ROOM, 0, "read: no room");

    fill();
    keep();
    capstan_read_answer r = capstan_read(edition, long_text, CAPSTAN_LIMIT, links, 0, params, 0);
    expect(r.number == CAPSTAN_DONE && r.place == 0 && r.links == 0 && r.params == 0, "read: 8,192 commas");
    expect_kept(0, 0, 0, "read: 8,192 commas");
    r = capstan_read(edition, octets(two), len, links, 2 * CAPSTAN_LINK_SLOTS, params, 3 * CAPSTAN_PARAM_SLOTS);
    expect(r.number == CAPSTAN_DONE && r.place == 0 && r.links == 2 && r.params == 3, "read: just room enough");
    expect_kept(2 * CAPSTAN_LINK_SLOTS, 3 * CAPSTAN_PARAM_SLOTS, 0, "read: just room enough");
}

/* The table that the lookups below are asked of. */
static const char header[] = "<a>;rel=\"ne\\xt\";anchor=\"#f\",<b>;rel=prev";
enum { HEADER_LEN = sizeof header - 1 };

static void read_header(void)
{
    fill();
    capstan_read_answer r = capstan_read(edition, octets(header), HEADER_LEN, links, LINK_SLOTS, params, PARAM_SLOTS);
    expect(r.number == CAPSTAN_DONE && r.links == 2 && r.params == 3, "the header is read");
    keep();
}

static void search(const uint8_t *text, size_t len, size_t param_count, const char *relation, size_t number, size_t link,
                   const char *what)
{
    capstan_search_answer s = capstan_search(edition, text, len, links, LINK_SLOTS, params, PARAM_SLOTS, 2, param_count,
                                             octets(relation), strlen(relation));
    expect(s.number == number && s.link == link, what);
    expect_kept(0, 0, 0, what);
}

static void test_search(void)
{
    read_header();
    search(octets(header), HEADER_LEN, 3, "NEXT", CAPSTAN_DONE, 0, "search: next");
    search(octets(header), HEADER_LEN, 3, "prev", CAPSTAN_DONE, 1, "search: prev");
    search(octets(header), HEADER_LEN, 3, "", CAPSTAN_NOT_FOUND, 0, "search: an empty relation");
    search(octets(header), HEADER_LEN, 2, "prev", CAPSTAN_BAD_TABLE, 0, "search: a parameter fewer");
    search(octets(header), HEADER_LEN - 1, 3, "prev", CAPSTAN_BAD_TABLE, 0, "search: the text cut short");
    search(octets(header), HEADER_LEN, SIZE_MAX, "prev", CAPSTAN_BAD_TABLE, 0, "search: all parameters that can be counted");
    search(long_text, sizeof long_text, 3, "prev", CAPSTAN_TOO_LONG, 0, "search: 8,193 octets");
}

static void context(const uint8_t *text, size_t len, size_t param_count, size_t link, size_t number, size_t source, size_t start,
                    size_t end, const char *what)
{
    capstan_context_answer c = capstan_context(edition, text, len, octets("/packs/7"), 8, links, LINK_SLOTS, params,
                                               PARAM_SLOTS, 2, param_count, link);
    expect(c.number == number && c.source == source && c.start == start && c.end == end, what);
    expect_kept(0, 0, 0, what);
}

static void test_context(void)
{
    read_header();
    context(octets(header), HEADER_LEN, 3, 0, CAPSTAN_DONE, CAPSTAN_TEXT, 24, 26, "context: the anchor");
    context(octets(header), HEADER_LEN, 3, 1, CAPSTAN_DONE, CAPSTAN_BASE, 0, 8, "context: the base");
    context(octets(header), HEADER_LEN, 3, 2, CAPSTAN_NO_SUCH_LINK, CAPSTAN_NO_SOURCE, 0, 0, "context: no such link");
    context(octets(header), HEADER_LEN, 3, SIZE_MAX, CAPSTAN_NO_SUCH_LINK, CAPSTAN_NO_SOURCE, 0, 0, "context: the last number");
    context(octets(header), HEADER_LEN, 2, 0, CAPSTAN_BAD_TABLE, CAPSTAN_NO_SOURCE, 0, 0, "context: a parameter fewer");
    context(long_text, sizeof long_text, 3, 0, CAPSTAN_TOO_LONG, CAPSTAN_NO_SOURCE, 0, 0, "context: 8,193 octets");
}

static void value_refused(const uint8_t *text, size_t len, size_t param_count, size_t link, size_t place, size_t out_len,
                          size_t number, const char *what)
{
    capstan_length_answer v = capstan_value(edition, text, len, links, LINK_SLOTS, params, PARAM_SLOTS, 2, param_count, link, place,
                                            out, out_len);
    expect(v.number == number && v.length == 0, what);
    expect_kept(0, 0, 0, what);
}

static void test_value(void)
{
    read_header();
    value_refused(long_text, sizeof long_text, 3, 0, 0, OCTETS, CAPSTAN_TOO_LONG, "value: 8,193 octets");
    value_refused(octets(header), HEADER_LEN, 2, 0, 0, OCTETS, CAPSTAN_BAD_TABLE, "value: a parameter fewer");
    value_refused(octets(header), HEADER_LEN, 3, 2, 0, OCTETS, CAPSTAN_NO_SUCH_LINK, "value: no such link");
    value_refused(octets(header), HEADER_LEN, 3, 0, 2, OCTETS, CAPSTAN_NOT_FOUND, "value: no such parameter");
    value_refused(octets(header), HEADER_LEN, 3, 1, SIZE_MAX, OCTETS, CAPSTAN_NOT_FOUND, "value: the last place");
    value_refused(octets(header), HEADER_LEN, 3, 0, 0, 3, CAPSTAN_NO_OUTPUT_ROOM, "value: room for three octets");

    capstan_length_answer v = capstan_value(edition, octets(header), HEADER_LEN, links, LINK_SLOTS, params, PARAM_SLOTS, 2, 3, 0, 0,
                                            out, 4);
    expect(v.number == CAPSTAN_DONE && v.length == 4 && memcmp(out, "next", 4) == 0, "value: just room enough");
    expect_kept(0, 0, 4, "value: just room enough");
}

/* The link has both titles, and the one behind it none. */
static const char titled[] = "<a>;title*=UTF-8''%C3%A4b;title=c,<d>";
enum { TITLED_LEN = sizeof titled - 1 };

static void read_titled(void)
{
    fill();
    capstan_read_answer r = capstan_read(edition, octets(titled), TITLED_LEN, links, LINK_SLOTS, params, PARAM_SLOTS);
    expect(r.number == CAPSTAN_DONE && r.links == 2 && r.params == 2, "the titles are read");
    keep();
}

static void title_refused(const uint8_t *text, size_t len, size_t param_count, size_t link, size_t out_len, size_t number,
                          const char *what)
{
    capstan_length_answer t = capstan_title(edition, text, len, links, LINK_SLOTS, params, PARAM_SLOTS, 2, param_count, link, out,
                                            out_len);
    expect(t.number == number && t.length == 0, what);
    expect_kept(0, 0, 0, what);
}

static void test_title(void)
{
    read_titled();
    title_refused(long_text, sizeof long_text, 2, 0, OCTETS, CAPSTAN_TOO_LONG, "title: 8,193 octets");
    title_refused(octets(titled), TITLED_LEN, 1, 0, OCTETS, CAPSTAN_BAD_TABLE, "title: a parameter fewer");
    title_refused(octets(titled), TITLED_LEN, 2, 2, OCTETS, CAPSTAN_NO_SUCH_LINK, "title: no such link");
    title_refused(octets(titled), TITLED_LEN, 2, SIZE_MAX, 0, CAPSTAN_NO_SUCH_LINK, "title: the last number");
    title_refused(octets(titled), TITLED_LEN, 2, 1, 0, CAPSTAN_NOT_FOUND, "title: none");
    title_refused(octets(titled), TITLED_LEN, 2, 0, 2, CAPSTAN_NO_OUTPUT_ROOM, "title: room for the plain one alone");

    capstan_length_answer t = capstan_title(edition, octets(titled), TITLED_LEN, links, LINK_SLOTS, params, PARAM_SLOTS, 2, 2, 0, out, 3);
    expect(t.number == CAPSTAN_DONE && t.length == 3 && memcmp(out, "\303\244b", 3) == 0, "title: just room enough");
    expect_kept(0, 0, 3, "title: just room enough");
}

static void decode_refused(const uint8_t *value, size_t len, size_t out_len, size_t number, const char *what)
{
    capstan_length_answer d = capstan_decode(value, len, out, out_len);
    expect(d.number == number && d.length == 0, what);
    expect_kept(0, 0, 0, what);
}

static void test_decode(void)
{
    fill();
    keep();
    decode_refused(long_text, sizeof long_text, OCTETS, CAPSTAN_TOO_LONG, "decode: 8,193 octets");
    decode_refused(long_text, CAPSTAN_LIMIT, 0, CAPSTAN_BAD_EXTENDED, "decode: 8,192 commas");
    decode_refused(octets("UTF-8''ab%"), 10, OCTETS, CAPSTAN_BAD_EXTENDED, "decode: wrong at its end");
    decode_refused(octets("UTF-8''ab%c3"), 12, 1, CAPSTAN_BAD_EXTENDED, "decode: wrong, and no room");
    decode_refused(octets("UTF-8''a%42"), 11, 1, CAPSTAN_NO_OUTPUT_ROOM, "decode: room for one octet");

    capstan_length_answer d = capstan_decode(octets("UTF-8''a%42"), 11, out, 2);
    expect(d.number == CAPSTAN_DONE && d.length == 2 && memcmp(out, "aB", 2) == 0, "decode: just room enough");
    expect_kept(0, 0, 2, "decode: just room enough");
}

static void resolve_refused(const uint8_t *reference, size_t len, const uint8_t *base, size_t base_len, size_t out_len, size_t number,
                            const char *what)
{
    capstan_length_answer a = capstan_resolve(reference, len, base, base_len, out, out_len);
    expect(a.number == number && a.length == 0, what);
    expect_kept(0, 0, 0, what);
}

static void test_resolve(void)
{
    const uint8_t *base = octets("a://h/b");

    fill();
    keep();
    resolve_refused(long_text, sizeof long_text, base, 7, OCTETS, CAPSTAN_TOO_LONG, "resolve: a reference of 8,193 octets");
    resolve_refused(octets("["), 1, long_text, sizeof long_text, 0, CAPSTAN_TOO_LONG, "resolve: a base of 8,193 octets");
    resolve_refused(octets("["), 1, base + 2, 5, OCTETS, CAPSTAN_BAD_BASE, "resolve: a base without a scheme, and no reference");
    resolve_refused(octets("c["), 2, base, 7, OCTETS, CAPSTAN_BAD_REFERENCE, "resolve: wrong at its end");
    resolve_refused(octets("c["), 2, base, 7, 0, CAPSTAN_BAD_REFERENCE, "resolve: wrong, and no room");
    resolve_refused(long_text, CAPSTAN_LIMIT, base, 7, OCTETS, CAPSTAN_TOO_LONG, "resolve: a result of 8,198 octets");
    resolve_refused(octets("../c"), 4, base, 7, 6, CAPSTAN_NO_OUTPUT_ROOM, "resolve: room for six octets");

    capstan_length_answer a = capstan_resolve(octets("../c"), 4, base, 7, out, 7);
    expect(a.number == CAPSTAN_DONE && a.length == 7 && memcmp(out, "a://h/c", 7) == 0, "resolve: just room enough");
    expect_kept(0, 0, 7, "resolve: just room enough");
}

static void resolved_context_refused(const uint8_t *text, size_t len, const uint8_t *base, size_t base_len, size_t param_count, size_t link,
                                     size_t out_len, size_t number, const char *what)
{
    capstan_length_answer c = capstan_resolved_context(edition, text, len, base, base_len, links, LINK_SLOTS, params, PARAM_SLOTS, 2,
                                                       param_count, link, out, out_len);
    expect(c.number == number && c.length == 0, what);
    expect_kept(0, 0, 0, what);
}

static void test_resolved_context(void)
{
    const uint8_t *text = octets(header), *base = octets("a:b#c");

    read_header();
    resolved_context_refused(long_text, sizeof long_text, base, 5, 3, 0, OCTETS, CAPSTAN_TOO_LONG, "resolved context: 8,193 octets");
    resolved_context_refused(text, HEADER_LEN, long_text, sizeof long_text, 2, 2, OCTETS, CAPSTAN_TOO_LONG,
                             "resolved context: a base of 8,193 octets, a parameter fewer, and no such link");
    resolved_context_refused(text, HEADER_LEN, base, 5, 2, 0, OCTETS, CAPSTAN_BAD_TABLE, "resolved context: a parameter fewer");
    resolved_context_refused(text, HEADER_LEN, base, 1, 3, 2, OCTETS, CAPSTAN_NO_SUCH_LINK, "resolved context: no such link, and no URI");
    resolved_context_refused(text, HEADER_LEN, base, 5, 3, SIZE_MAX, 0, CAPSTAN_NO_SUCH_LINK, "resolved context: the last number");
    resolved_context_refused(text, HEADER_LEN, base, 1, 3, 0, OCTETS, CAPSTAN_BAD_BASE, "resolved context: no URI");
    resolved_context_refused(text, HEADER_LEN, base, 1, 3, 1, 0, CAPSTAN_BAD_BASE, "resolved context: no URI, and no anchor");
    resolved_context_refused(text, HEADER_LEN, base, 5, 3, 0, 4, CAPSTAN_NO_OUTPUT_ROOM, "resolved context: room for four octets");
    resolved_context_refused(text, HEADER_LEN, base, 5, 3, 1, 2, CAPSTAN_NO_OUTPUT_ROOM, "resolved context: room for two octets");

    capstan_length_answer c = capstan_resolved_context(edition, text, HEADER_LEN, base, 5, links, LINK_SLOTS, params, PARAM_SLOTS, 2, 3, 0,
                                                       out, 5);
    expect(c.number == CAPSTAN_DONE && c.length == 5 && memcmp(out, "a:b#f", 5) == 0, "resolved context: just room enough");
    expect_kept(0, 0, 5, "resolved context: just room enough");
    keep();
    c = capstan_resolved_context(edition, text, HEADER_LEN, base, 5, links, LINK_SLOTS, params, PARAM_SLOTS, 2, 3, 1, out, OCTETS);
    expect(c.number == CAPSTAN_DONE && c.length == 3 && memcmp(out, "a:b", 3) == 0, "resolved context: the base");
    expect_kept(0, 0, 3, "resolved context: the base");
}

static void write_refused(const uint8_t *text, size_t len, size_t link_count, size_t param_count, size_t out_len, size_t number,
                          const char *what)
{
    capstan_length_answer w = capstan_write(edition, text, len, links, LINK_SLOTS, params, PARAM_SLOTS, link_count, param_count, out,
                                            out_len);
    expect(w.number == number && w.length == 0, what);
    expect_kept(0, 0, 0, what);
}

/* Two links of one long target: a form over the limit, of a text that is not. */
static void test_long_form(void)
{
    enum { TARGET = CAPSTAN_LIMIT / 2 + 1 };
    static uint8_t text[TARGET + 10];

    memset(text, 'a', sizeof text);
    text[0] = '<';
    memcpy(text + 1 + TARGET, ">;rel=x", 7);
    fill();
    capstan_read_answer r = capstan_read(edition, text, TARGET + 8, links, LINK_SLOTS, params, PARAM_SLOTS);
    expect(r.number == CAPSTAN_DONE && r.links == 1 && r.params == 1, "the long target is read");
    memcpy(links + CAPSTAN_LINK_SLOTS, links, CAPSTAN_LINK_SLOTS * sizeof *links);
    memcpy(params + CAPSTAN_PARAM_SLOTS, params, CAPSTAN_PARAM_SLOTS * sizeof *params);
    links[CAPSTAN_LINK_SLOTS + 2] = 1;
    keep();
    write_refused(text, TARGET + 8, 1, 1, OCTETS, CAPSTAN_NO_OUTPUT_ROOM, "write: one long target");
    write_refused(text, TARGET + 8, 2, 2, OCTETS, CAPSTAN_TOO_LONG, "write: a long form");
}

static void test_write(void)
{
    static const char bare[] = "<a>;rel=\"  \"";
    static const char form[] = "<a>; rel=next; t=\"\\\"\"";
    static const char quoted[] = "<a>;REL=\"n\\ext\";t=\"\\\"\"";
    const size_t form_len = sizeof form - 1, quoted_len = sizeof quoted - 1;

    read_header();
    write_refused(long_text, sizeof long_text, 2, 3, OCTETS, CAPSTAN_TOO_LONG, "write: 8,193 octets");
    write_refused(octets(header), HEADER_LEN, 2, 2, OCTETS, CAPSTAN_BAD_TABLE, "write: a parameter fewer");
    write_refused(octets(header), HEADER_LEN, SIZE_MAX, SIZE_MAX, OCTETS, CAPSTAN_BAD_TABLE, "write: the largest counts");

    fill();
    capstan_read_answer r = capstan_read(edition, octets(bare), sizeof bare - 1, links, LINK_SLOTS, params, PARAM_SLOTS);
    expect(r.number == CAPSTAN_DONE, "spaces for a relation are read");
    keep();
    write_refused(octets(bare), sizeof bare - 1, 1, 1, OCTETS, CAPSTAN_NO_RELATION, "write: spaces for a relation");

    fill();
    r = capstan_read(edition, octets(quoted), quoted_len, links, LINK_SLOTS, params, PARAM_SLOTS);
    expect(r.number == CAPSTAN_DONE && r.links == 1 && r.params == 2, "the quoted values are read");
    keep();
    write_refused(octets(quoted), quoted_len, 1, 2, form_len - 1, CAPSTAN_NO_OUTPUT_ROOM, "write: an octet too few");
    capstan_length_answer w = capstan_write(edition, octets(quoted), quoted_len, links, LINK_SLOTS, params, PARAM_SLOTS, 1, 2, out,
                                            form_len);
    expect(w.number == CAPSTAN_DONE && w.length == form_len && memcmp(out, form, form_len) == 0, "write: just room enough");
    expect_kept(0, 0, form_len, "write: just room enough");
    w = capstan_write(edition, octets(""), 0, links, 0, params, 0, 0, 0, out, 0);
    expect(w.number == CAPSTAN_DONE && w.length == 0, "write: no links");
    test_long_form();
}

/* What a feeding is given from call to call: its state, and the buffer with octets on both sides that aren't lent. */
enum { GUARD = 64, GUARDED = GUARD + CAPSTAN_LIMIT + GUARD };
static uint8_t guarded[GUARDED], guarded_before[GUARDED];
static uint8_t *const buffer = guarded + GUARD;
static capstan_feeding state;
static size_t stored;

static void start(void)
{
    for (size_t i = 0; i < GUARDED; i++) guarded[i] = (uint8_t)(i % 251);
    state = capstan_start(edition);
    stored = 0;
}

/* A part that is taken stands behind those before it; nothing else changes. Without room or edition the state stays, too. */
static void feed(const uint8_t *part, size_t len, size_t buffer_len, size_t number, size_t place, const char *what)
{
    memcpy(guarded_before, guarded, GUARDED);
    capstan_feed_answer f = capstan_feed(state, part, len, buffer, buffer_len);
    expect(f.number == number && f.place == place, what);
    if (number == CAPSTAN_DONE) {
        memcpy(guarded_before + GUARD + stored, part, len);
        stored += len;
    }
    expect(memcmp(guarded, guarded_before, GUARDED) == 0, what);
    if (number == CAPSTAN_NO_OUTPUT_ROOM || number == CAPSTAN_UNKNOWN_EDITION)
        expect(memcmp(&f.next, &state, sizeof state) == 0, what);
    state = f.next;
}

/* Asked twice; the records are those of reading the octets gathered, and a refusal puts none. */
static void finish(size_t buffer_len, size_t link_slots, size_t param_slots, size_t number, size_t place, const char *what)
{
    capstan_read_answer whole = { number, place, 0, 0 };

    fill();
    if (number == CAPSTAN_DONE)
        whole = capstan_read(edition, buffer, stored, links, link_slots, params, param_slots);
    keep();
    memcpy(guarded_before, guarded, GUARDED);
    for (int again = 0; again < 2; again++) {
        fill();
        capstan_read_answer r = capstan_finish(state, buffer, buffer_len, links, link_slots, params, param_slots);
        expect(r.number == number && memcmp(&r, &whole, sizeof r) == 0, what);
        expect_kept(0, 0, 0, what);
        expect(memcmp(guarded, guarded_before, GUARDED) == 0, what);
    }
}

static void test_room(void)
{
    start();
    feed(octets("<a>;x=1"), 7, CAPSTAN_LIMIT - 1, CAPSTAN_NO_OUTPUT_ROOM, 0, "feed: 8,191 octets of room");
    feed(octets("<a>;x=1"), 7, CAPSTAN_LIMIT, CAPSTAN_DONE, 0, "feed: just room enough");
    feed(octets(";y=2"), 4, 0, CAPSTAN_NO_OUTPUT_ROOM, 0, "feed: no room");
    feed(octets(""), 0, CAPSTAN_LIMIT, CAPSTAN_DONE, 0, "feed: nothing");
    feed(octets(";y=2,<b>;z"), 10, CAPSTAN_LIMIT + GUARD, CAPSTAN_DONE, 0, "feed: more room than needed");
    finish(CAPSTAN_LIMIT - 1, LINK_SLOTS, PARAM_SLOTS, CAPSTAN_NO_OUTPUT_ROOM, 0, "finish: a buffer of 8,191 octets");
    finish(CAPSTAN_LIMIT, 2 * CAPSTAN_LINK_SLOTS - 1, PARAM_SLOTS, CAPSTAN_NO_LINK_ROOM, 0, "finish: one link");
    finish(CAPSTAN_LIMIT, LINK_SLOTS, 3 * CAPSTAN_PARAM_SLOTS - 1, CAPSTAN_NO_PARAM_ROOM, 0, "finish: two parameters");
    finish(CAPSTAN_LIMIT, 2 * CAPSTAN_LINK_SLOTS, 3 * CAPSTAN_PARAM_SLOTS, CAPSTAN_DONE, 0, "finish: just room enough");
    finish(CAPSTAN_LIMIT + GUARD, LINK_SLOTS, PARAM_SLOTS, CAPSTAN_DONE, 0, "finish: more room than needed");
}

static void test_malformed(void)
{
    start();
    feed(octets("<a>,<b>;t=\""), 11, CAPSTAN_LIMIT, CAPSTAN_DONE, 0, "feed: a quoted string begins");
    finish(CAPSTAN_LIMIT, LINK_SLOTS, PARAM_SLOTS, CAPSTAN_MALFORMED, 11, "finish: cut short");
    feed(octets(",\""), 2, CAPSTAN_LIMIT, CAPSTAN_DONE, 0, "feed: a quoted string ends");
    finish(CAPSTAN_LIMIT, LINK_SLOTS, PARAM_SLOTS, CAPSTAN_DONE, 0, "finish: whole after all");
    feed(octets(" ,<c> <d>"), 9, CAPSTAN_LIMIT, CAPSTAN_MALFORMED, 19, "feed: a link behind a link");
    feed(octets(""), 0, CAPSTAN_LIMIT, CAPSTAN_MALFORMED, 19, "feed: nothing behind a fault");
    feed(octets(","), 1, CAPSTAN_LIMIT - 1, CAPSTAN_NO_OUTPUT_ROOM, 0, "feed: a fault, and no room");
    finish(CAPSTAN_LIMIT, 0, 0, CAPSTAN_MALFORMED, 19, "finish: a fault");
    feed(long_text, CAPSTAN_LIMIT - 22, CAPSTAN_LIMIT, CAPSTAN_MALFORMED, 19, "feed: 8,192 octets with a fault");
    feed(octets(","), 1, CAPSTAN_LIMIT, CAPSTAN_TOO_LONG, 0, "feed: 8,193 octets with a fault");
    finish(CAPSTAN_LIMIT, LINK_SLOTS, PARAM_SLOTS, CAPSTAN_TOO_LONG, 0, "finish: 8,193 octets with a fault");
}

static void test_unfit(void)
{
    start();
    feed(octets("<a>, <1:"), 8, CAPSTAN_LIMIT, CAPSTAN_DONE, 0, "feed: a target that is no reference, open");
    finish(CAPSTAN_LIMIT, LINK_SLOTS, PARAM_SLOTS, CAPSTAN_MALFORMED, 8, "finish: cut short in a target");
    feed(octets("b>;x"), 4, CAPSTAN_LIMIT - 1, CAPSTAN_NO_OUTPUT_ROOM, 0, "feed: a target closed, and no room");
    feed(octets("b>;x"), 4, CAPSTAN_LIMIT, CAPSTAN_MALFORMED, 6, "feed: a target that is no reference, closed");
    feed(octets(";;"), 2, CAPSTAN_LIMIT, CAPSTAN_MALFORMED, 6, "feed: a fault behind a target that is no reference");
    finish(CAPSTAN_LIMIT, LINK_SLOTS, PARAM_SLOTS, CAPSTAN_MALFORMED, 6, "finish: a target that is no reference");
}

static void test_too_long(void)
{
    start();
    feed(long_text, CAPSTAN_LIMIT, CAPSTAN_LIMIT, CAPSTAN_DONE, 0, "feed: 8,192 commas");
    finish(CAPSTAN_LIMIT, 0, 0, CAPSTAN_DONE, 0, "finish: 8,192 commas");
    feed(octets(","), 1, CAPSTAN_LIMIT - 1, CAPSTAN_NO_OUTPUT_ROOM, 0, "feed: an octet too many, and no room");
    feed(octets(""), 0, CAPSTAN_LIMIT, CAPSTAN_DONE, 0, "feed: nothing behind 8,192 commas");
    feed(octets("a"), 1, CAPSTAN_LIMIT, CAPSTAN_TOO_LONG, 0, "feed: an octet too many, and wrong");
    feed(octets(""), 0, CAPSTAN_LIMIT, CAPSTAN_TOO_LONG, 0, "feed: nothing behind too many");
    feed(octets(""), 0, CAPSTAN_LIMIT - 1, CAPSTAN_NO_OUTPUT_ROOM, 0, "feed: too many, and no room");
    finish(CAPSTAN_LIMIT, LINK_SLOTS, PARAM_SLOTS, CAPSTAN_TOO_LONG, 0, "finish: 8,193 octets");
    finish(0, LINK_SLOTS, PARAM_SLOTS, CAPSTAN_NO_OUTPUT_ROOM, 0, "finish: 8,193 octets, and no buffer");
    start();
    feed(long_text, CAPSTAN_LIMIT + 1, CAPSTAN_LIMIT + GUARD, CAPSTAN_TOO_LONG, 0, "feed: 8,193 commas at once");
}

/* The edition comes first and the room next; then the number is any of the entry's, which go as far as the last. */
static void expect_wild(size_t number, size_t last, size_t buffer_len, const char *what)
{
    if (edition > CAPSTAN_RFC5988)
        expect(number == CAPSTAN_UNKNOWN_EDITION, what);
    else if (buffer_len < CAPSTAN_LIMIT)
        expect(number == CAPSTAN_NO_OUTPUT_ROOM, what);
    else
        expect(number <= last, what);
}

/* With a state of any numbers the answer is a number of the entry, a refusal changes nothing, and what isn't lent stays as it was. */
static void wild_feed(const uint8_t *part, size_t len, size_t buffer_len)
{
    memcpy(guarded_before, guarded, GUARDED);
    capstan_feed_answer f = capstan_feed(state, part, len, buffer, buffer_len);
    expect_wild(f.number, CAPSTAN_MALFORMED, buffer_len, "feed: a wild state");
    if (f.number == CAPSTAN_NO_OUTPUT_ROOM || f.number == CAPSTAN_UNKNOWN_EDITION)
        expect(memcmp(&f.next, &state, sizeof state) == 0, "feed: a wild state, and no room or edition");
    if (f.number == CAPSTAN_DONE)
        memcpy(guarded_before + GUARD, buffer, buffer_len);
    expect(memcmp(guarded, guarded_before, GUARDED) == 0, "feed: a wild state");
}

static void wild_finish(size_t buffer_len)
{
    enum { LENT_LINKS = 2 * CAPSTAN_LINK_SLOTS, LENT_PARAMS = 2 * CAPSTAN_PARAM_SLOTS };

    fill();
    keep();
    memcpy(guarded_before, guarded, GUARDED);
    capstan_read_answer r = capstan_finish(state, buffer, buffer_len, links, LENT_LINKS, params, LENT_PARAMS);
    int done = r.number == CAPSTAN_DONE;
    expect_wild(r.number, CAPSTAN_NO_PARAM_ROOM, buffer_len, "finish: a wild state");
    expect_kept(done ? LENT_LINKS : 0, done ? LENT_PARAMS : 0, 0, "finish: a wild state");
    expect(memcmp(guarded, guarded_before, GUARDED) == 0, "finish: a wild state");
}

/* Of the open target, too: where it starts, and how far it is judged. */
static void test_wild_targets(void)
{
    static const size_t wild[] = { 0, 1, 7, CAPSTAN_LIMIT, CAPSTAN_LIMIT + 1, SIZE_MAX - 1, SIZE_MAX };
    enum { WILD = sizeof wild / sizeof *wild, JUDGED = 600, PHASES = 4 };

    for (size_t i = 0; i < (JUDGED + WILD) * WILD * PHASES; i++) {
        const size_t judged = i / (WILD * PHASES);
        start();
        memcpy(buffer, header, HEADER_LEN);
        state.phase = i % PHASES;
        state.target = wild[i / PHASES % WILD];
        state.judged = judged < JUDGED ? judged : wild[judged - JUDGED];
        wild_finish(CAPSTAN_LIMIT);
        wild_feed(octets("aa>;z"), 5, CAPSTAN_LIMIT - 1);
        wild_feed(octets("aa>;z"), 5, CAPSTAN_LIMIT);
    }
}

static void test_wild_states(void)
{
    static const size_t wild[] = { 0, 1, 7, CAPSTAN_LIMIT - 1, CAPSTAN_LIMIT, CAPSTAN_LIMIT + 1, SIZE_MAX - 1, SIZE_MAX };
    enum { WILD = sizeof wild / sizeof *wild, PHASES = 64 };

    for (size_t i = 0; i < (PHASES + WILD) * WILD * WILD; i++) {
        start();
        memcpy(buffer, header, HEADER_LEN);
        size_t phase = i / (WILD * WILD);
        state.phase = phase < PHASES ? phase : wild[phase - PHASES];
        state.total = wild[i / WILD % WILD];
        state.place = wild[i % WILD];
        wild_finish(CAPSTAN_LIMIT);
        wild_finish(CAPSTAN_LIMIT - 1);
        wild_feed(octets(",<c>;z"), 6, CAPSTAN_LIMIT - 1);
        wild_feed(octets(",<c>;z"), 6, CAPSTAN_LIMIT);
    }
}

/* What is lent for work may hold anything afterwards: the first slots, and so many octets of the buffer. All else stays. */
static void walk(const uint8_t *catalogue, size_t len, size_t from, int32_t steps, size_t param_slots, size_t work_len, size_t number,
                 size_t end, const char *what)
{
    enum { LENT_LINKS = 2 * CAPSTAN_LINK_SLOTS };
    static uint8_t text[CAPSTAN_CATALOGUE_LIMIT + 1];

    fill();
    keep();
    start();
    memcpy(text, catalogue, len);
    memcpy(guarded_before, guarded, GUARDED);
    capstan_walk_answer w = capstan_walk(text, len, from, steps, links, LENT_LINKS, params, param_slots, buffer, work_len);
    expect(w.number == number && w.end == end && w.pack == 0 && w.steps == 0, what);
    expect_kept(LENT_LINKS, param_slots, 0, what);
    memcpy(guarded_before + GUARD, buffer, work_len);
    expect(memcmp(guarded, guarded_before, GUARDED) == 0, what);
    expect(memcmp(text, catalogue, len) == 0, what);
}

static void test_walk(void)
{
    static const char packs[] = "a:b\t<c>;rel=next;x,<d>;rel=prev\na:c\t<d>;y\n";
    static uint8_t long_catalogue[CAPSTAN_CATALOGUE_LIMIT + 1];
    enum { LEN = sizeof packs - 1, SLOTS = 3 * CAPSTAN_PARAM_SLOTS, WORK = CAPSTAN_LIMIT };
    const uint8_t *text = octets(packs);

    memset(long_catalogue, 'b', sizeof long_catalogue);
    memcpy(long_catalogue, "a:", 2);
    memcpy(long_catalogue + CAPSTAN_CATALOGUE_LIMIT - 1, "\t\n", 2);
    walk(text, LEN, 0, INT32_MIN, SLOTS, WORK, CAPSTAN_OUT_OF_RANGE, CAPSTAN_NO_END, "walk: the smallest number");
    walk(text, LEN - 1, 2, 65, 0, 0, CAPSTAN_OUT_OF_RANGE, CAPSTAN_NO_END, "walk: 65 steps, and all else wrong");
    walk(text, LEN - 1, 2, -1, SLOTS, 0, CAPSTAN_BAD_CATALOGUE, CAPSTAN_NO_END, "walk: no LF at its end, no such pack, and no octets");
    walk(text, LEN, 0, 0, SLOTS - 1, WORK, CAPSTAN_BAD_CATALOGUE, CAPSTAN_NO_END, "walk: two parameters");
    walk(long_catalogue, sizeof long_catalogue, 0, 0, SLOTS, WORK, CAPSTAN_BAD_CATALOGUE, CAPSTAN_NO_END, "walk: 65,537 octets");
    walk(text, LEN, 2, 1, SLOTS, 0, CAPSTAN_NO_SUCH_LINK, CAPSTAN_NO_END, "walk: no such pack, and no octets");
    walk(text, 0, 0, 0, 0, WORK, CAPSTAN_NO_SUCH_LINK, CAPSTAN_NO_END, "walk: no packs");
    walk(text, LEN, 0, 0, SLOTS, WORK - 1, CAPSTAN_NO_OUTPUT_ROOM, CAPSTAN_NO_END, "walk: 8,191 octets for resolving");
    walk(text, LEN, 0, 0, SLOTS, WORK, CAPSTAN_DONE, CAPSTAN_ARRIVED, "walk: no step");
    walk(text, LEN, 0, -1, SLOTS, WORK, CAPSTAN_DONE, CAPSTAN_NO_PACK, "walk: just room enough");
    walk(text, LEN, 0, -64, PARAM_SLOTS, WORK + GUARD, CAPSTAN_DONE, CAPSTAN_NO_PACK, "walk: more room than needed");
}

static void test_edition(void)
{
    test_read();
    test_search();
    test_context();
    test_value();
    test_title();
    test_decode();
    test_resolve();
    test_resolved_context();
    test_write();
    test_room();
    test_malformed();
    test_unfit();
    test_too_long();
    test_wild_states();
    test_wild_targets();
    test_walk();
}

/* Whatever else would be done or refused; the table is one of a known edition. */
static void test_unknown_edition(size_t unknown)
{
    const uint8_t *text = octets(header);

    edition = CAPSTAN_RFC8288;
    read_header();
    edition = unknown;
    search(text, HEADER_LEN, 3, "prev", CAPSTAN_UNKNOWN_EDITION, 0, "search: an unknown edition");
    search(text, HEADER_LEN, 3, "", CAPSTAN_UNKNOWN_EDITION, 0, "search: an unknown edition, and an empty relation");
    search(text, HEADER_LEN, 2, "prev", CAPSTAN_UNKNOWN_EDITION, 0, "search: an unknown edition, and a bad table");
    search(long_text, sizeof long_text, 3, "prev", CAPSTAN_UNKNOWN_EDITION, 0, "search: an unknown edition, and 8,193 octets");
    context(text, HEADER_LEN, 3, 0, CAPSTAN_UNKNOWN_EDITION, 0, 0, 0, "context: an unknown edition");
    context(text, HEADER_LEN, 3, 2, CAPSTAN_UNKNOWN_EDITION, 0, 0, 0, "context: an unknown edition, and no such link");
    context(text, HEADER_LEN, 2, 0, CAPSTAN_UNKNOWN_EDITION, 0, 0, 0, "context: an unknown edition, and a bad table");
    context(long_text, sizeof long_text, 3, 0, CAPSTAN_UNKNOWN_EDITION, 0, 0, 0, "context: an unknown edition, and 8,193 octets");
    value_refused(text, HEADER_LEN, 3, 0, 0, OCTETS, CAPSTAN_UNKNOWN_EDITION, "value: an unknown edition");
    value_refused(text, HEADER_LEN, 3, 0, 0, 3, CAPSTAN_UNKNOWN_EDITION, "value: an unknown edition, and room for three octets");
    value_refused(text, HEADER_LEN, 3, 0, 2, OCTETS, CAPSTAN_UNKNOWN_EDITION, "value: an unknown edition, and no such parameter");
    value_refused(text, HEADER_LEN, 3, 2, 0, OCTETS, CAPSTAN_UNKNOWN_EDITION, "value: an unknown edition, and no such link");
    value_refused(text, HEADER_LEN, 2, 0, 0, OCTETS, CAPSTAN_UNKNOWN_EDITION, "value: an unknown edition, and a bad table");
    value_refused(long_text, sizeof long_text, 3, 0, 0, 0, CAPSTAN_UNKNOWN_EDITION, "value: an unknown edition, and 8,193 octets");
    title_refused(text, HEADER_LEN, 3, 0, OCTETS, CAPSTAN_UNKNOWN_EDITION, "title: an unknown edition, and none");
    title_refused(text, HEADER_LEN, 3, 2, OCTETS, CAPSTAN_UNKNOWN_EDITION, "title: an unknown edition, and no such link");
    title_refused(text, HEADER_LEN, 2, 0, OCTETS, CAPSTAN_UNKNOWN_EDITION, "title: an unknown edition, and a bad table");
    title_refused(long_text, sizeof long_text, 3, 0, 0, CAPSTAN_UNKNOWN_EDITION, "title: an unknown edition, and 8,193 octets");
    resolved_context_refused(text, HEADER_LEN, octets("a:b"), 3, 3, 0, OCTETS, CAPSTAN_UNKNOWN_EDITION,
                             "resolved context: an unknown edition");
    resolved_context_refused(text, HEADER_LEN, octets("a:b"), 3, 3, 0, 0, CAPSTAN_UNKNOWN_EDITION,
                             "resolved context: an unknown edition, and no room");
    resolved_context_refused(text, HEADER_LEN, octets("b"), 1, 3, 0, OCTETS, CAPSTAN_UNKNOWN_EDITION,
                             "resolved context: an unknown edition, and no URI");
    resolved_context_refused(text, HEADER_LEN, octets("a:b"), 3, 3, 2, OCTETS, CAPSTAN_UNKNOWN_EDITION,
                             "resolved context: an unknown edition, and no such link");
    resolved_context_refused(text, HEADER_LEN, octets("a:b"), 3, 2, 0, OCTETS, CAPSTAN_UNKNOWN_EDITION,
                             "resolved context: an unknown edition, and a bad table");
    resolved_context_refused(text, HEADER_LEN, long_text, sizeof long_text, 3, 0, OCTETS, CAPSTAN_UNKNOWN_EDITION,
                             "resolved context: an unknown edition, and a base of 8,193 octets");
    resolved_context_refused(long_text, sizeof long_text, octets("a:b"), 3, 3, 0, 0, CAPSTAN_UNKNOWN_EDITION,
                             "resolved context: an unknown edition, and 8,193 octets");
    write_refused(text, HEADER_LEN, 2, 3, OCTETS, CAPSTAN_UNKNOWN_EDITION, "write: an unknown edition");
    write_refused(text, HEADER_LEN, 2, 3, 0, CAPSTAN_UNKNOWN_EDITION, "write: an unknown edition, and no room");
    write_refused(text, HEADER_LEN, 2, 2, OCTETS, CAPSTAN_UNKNOWN_EDITION, "write: an unknown edition, and a bad table");
    write_refused(long_text, sizeof long_text, 2, 3, 0, CAPSTAN_UNKNOWN_EDITION, "write: an unknown edition, and 8,193 octets");
    write_refused(octets(""), 0, 0, 0, 0, CAPSTAN_UNKNOWN_EDITION, "write: an unknown edition, and no links");

    edition = CAPSTAN_RFC8288;
    read_titled();
    edition = unknown;
    title_refused(octets(titled), TITLED_LEN, 2, 0, OCTETS, CAPSTAN_UNKNOWN_EDITION, "title: an unknown edition");
    title_refused(octets(titled), TITLED_LEN, 2, 0, 0, CAPSTAN_UNKNOWN_EDITION, "title: an unknown edition, and no room");

    read_refused(text, HEADER_LEN, LINK_SLOTS, PARAM_SLOTS, CAPSTAN_UNKNOWN_EDITION, 0, "read: an unknown edition");
    read_refused(text, HEADER_LEN, 0, 0, CAPSTAN_UNKNOWN_EDITION, 0, "read: an unknown edition, and no room");
    read_refused(text, 2, LINK_SLOTS, PARAM_SLOTS, CAPSTAN_UNKNOWN_EDITION, 0, "read: an unknown edition, and cut short");
    read_refused(long_text, sizeof long_text, 0, 0, CAPSTAN_UNKNOWN_EDITION, 0, "read: an unknown edition, and 8,193 octets");

    start();
    finish(CAPSTAN_LIMIT, LINK_SLOTS, PARAM_SLOTS, CAPSTAN_UNKNOWN_EDITION, 0, "finish: an unknown edition, and nothing fed");
    feed(text, HEADER_LEN, CAPSTAN_LIMIT, CAPSTAN_UNKNOWN_EDITION, 0, "feed: an unknown edition");
    feed(text, HEADER_LEN, CAPSTAN_LIMIT - 1, CAPSTAN_UNKNOWN_EDITION, 0, "feed: an unknown edition, and no room");
    feed(octets("a"), 1, CAPSTAN_LIMIT, CAPSTAN_UNKNOWN_EDITION, 0, "feed: an unknown edition, and a fault");
    feed(long_text, sizeof long_text, CAPSTAN_LIMIT, CAPSTAN_UNKNOWN_EDITION, 0, "feed: an unknown edition, and 8,193 octets");
    feed(octets(""), 0, 0, CAPSTAN_UNKNOWN_EDITION, 0, "feed: an unknown edition, and nothing");
    finish(CAPSTAN_LIMIT, LINK_SLOTS, PARAM_SLOTS, CAPSTAN_UNKNOWN_EDITION, 0, "finish: an unknown edition");
    finish(0, 0, 0, CAPSTAN_UNKNOWN_EDITION, 0, "finish: an unknown edition, and no buffer");
    test_wild_states();
    test_wild_targets();
}

int main(void)
{
    for (edition = CAPSTAN_RFC8288; edition <= CAPSTAN_RFC5988; edition++) test_edition();
    test_unknown_edition(2);
    test_unknown_edition(256); /* of whose octets, as of the next one's, the lowest is a known edition */
    test_unknown_edition((size_t)1 << 32);
    test_unknown_edition(SIZE_MAX);
    return failures != 0;
}
