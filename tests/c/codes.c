/*
 * The code of its name in each parameter's record: reading puts it last, and a table with any other number there is refused by every
 * function over tables, which leaves all that it is lent as it was.
 */
#include "capstan.h"

#include <stdio.h>
#include <string.h>

enum { CODE = CAPSTAN_PARAM_SLOTS - 1, LINK_SLOTS = 2 * CAPSTAN_LINK_SLOTS, PARAM_SLOTS = 8 * CAPSTAN_PARAM_SLOTS };
enum { OCTETS = 64, EDITIONS = 2, UNUSED = 77 };

/* Each known name in small letters and with capitals, and names that are none, though nearly. */
static const struct { const char *name; size_t code; } rows[] = {
    { "rel", CAPSTAN_REL }, { "REL", CAPSTAN_REL },
    { "anchor", CAPSTAN_ANCHOR }, { "Anchor", CAPSTAN_ANCHOR },
    { "media", CAPSTAN_MEDIA }, { "MEDIA", CAPSTAN_MEDIA },
    { "title", CAPSTAN_TITLE }, { "tITLE", CAPSTAN_TITLE },
    { "title*", CAPSTAN_TITLE_STAR }, { "TITLE*", CAPSTAN_TITLE_STAR },
    { "type", CAPSTAN_TYPE }, { "TypE", CAPSTAN_TYPE },
    { "hreflang", CAPSTAN_HREFLANG }, { "HrefLang", CAPSTAN_HREFLANG },
    { "rev", CAPSTAN_REV }, { "reV", CAPSTAN_REV },
    { "relx", CAPSTAN_OTHER_NAME }, { "RELX", CAPSTAN_OTHER_NAME },
    { "re", CAPSTAN_OTHER_NAME }, { "rel*", CAPSTAN_OTHER_NAME },
    { "title**", CAPSTAN_OTHER_NAME }, { "x", CAPSTAN_OTHER_NAME },
};
enum { ROWS = sizeof rows / sizeof *rows };

/* Numbers that may stand for a code: the codes and the next, what has them for its low bits, and the largest. */
static const size_t wide[] = { 0, 256, 65536, (size_t)1 << 32, (size_t)1 << 63 };
enum { WIDE = sizeof wide / sizeof *wide, EACH = 10, NUMBERS = WIDE * EACH + 2 };

static size_t number_at(size_t i)
{
    return i < WIDE * EACH ? wide[i / EACH] + i % EACH : SIZE_MAX - (i - WIDE * EACH);
}

/* All that is lent: a table's text and slots, and the output of a resolved context, of a value, of a title and of a written form. */
static struct {
    size_t links[LINK_SLOTS], params[PARAM_SLOTS];
    uint8_t text[OCTETS], resolved[OCTETS], value[OCTETS], title[OCTETS], form[OCTETS];
} lent, before;

static int failures;

/* Shows the first failure alone: one slip makes many wrong answers. */
static void expect(int holds, const char *what, const char *text, size_t number)
{
    if (!holds && failures++ == 0)
        printf("codes: %s, with the number %zu: %s\n", what, number, text);
}

static void fill(const char *text)
{
    memset(&lent, 0, sizeof lent);
    memcpy(lent.text, text, strlen(text));
    for (size_t i = 0; i < LINK_SLOTS; i++) lent.links[i] = UNUSED;
    for (size_t i = 0; i < PARAM_SLOTS; i++) lent.params[i] = UNUSED;
    memset(lent.resolved, UNUSED, OCTETS);
    memset(lent.value, UNUSED, OCTETS);
    memset(lent.title, UNUSED, OCTETS);
    memset(lent.form, UNUSED, OCTETS);
}

static void keep(void)
{
    memcpy(&before, &lent, sizeof lent);
}

static int untouched(void)
{
    return memcmp(&lent, &before, sizeof lent) == 0;
}

/* A parameter of that name is read, whole and in two parts: its code stands behind the other numbers, and nothing behind it. */
static void test_read(size_t edition, size_t row)
{
    static uint8_t buffer[CAPSTAN_LIMIT];
    const size_t name_len = strlen(rows[row].name), len = 6 + name_len;
    const size_t record[CAPSTAN_PARAM_SLOTS] = { 4, 4 + name_len, 5 + name_len, len, CAPSTAN_TOKEN, rows[row].code };
    const capstan_read_answer due = { CAPSTAN_DONE, 0, 1, 1 };
    char text[OCTETS];

    snprintf(text, sizeof text, "<a>;%s=b", rows[row].name);
    fill(text);
    capstan_read_answer r = capstan_read(edition, lent.text, len, lent.links, LINK_SLOTS, lent.params, PARAM_SLOTS);
    expect(memcmp(&r, &due, sizeof r) == 0, "it is read", text, rows[row].code);
    expect(memcmp(lent.params, record, sizeof record) == 0, "the record", text, rows[row].code);
    expect(lent.params[CAPSTAN_PARAM_SLOTS] == UNUSED, "the slot behind the record", text, rows[row].code);
    keep();

    fill(text);
    capstan_feeding state = capstan_feed(capstan_start(edition), lent.text, 6, buffer, sizeof buffer).next;
    state = capstan_feed(state, lent.text + 6, len - 6, buffer, sizeof buffer).next;
    r = capstan_finish(state, buffer, sizeof buffer, lent.links, LINK_SLOTS, lent.params, PARAM_SLOTS);
    expect(memcmp(&r, &due, sizeof r) == 0 && untouched(), "read in parts", text, rows[row].code);
}

/* What the functions answer of a table: asked for `b`, and for the first link, its context, resolved too, its first value and its title. */
typedef struct { capstan_search_answer search; capstan_context_answer context; capstan_length_answer resolved, value, title, write; } asked;

static const asked bad = {
    { CAPSTAN_BAD_TABLE, 0 }, { CAPSTAN_BAD_TABLE, CAPSTAN_NO_SOURCE, 0, 0 }, { CAPSTAN_BAD_TABLE, 0 }, { CAPSTAN_BAD_TABLE, 0 },
    { CAPSTAN_BAD_TABLE, 0 }, { CAPSTAN_BAD_TABLE, 0 },
};

static asked ask(size_t edition, size_t len, size_t links, size_t params)
{
    asked a;

    a.search = capstan_search(edition, lent.text, len, lent.links, LINK_SLOTS, lent.params, PARAM_SLOTS, links, params,
                              (const uint8_t *)"b", 1);
    a.context = capstan_context(edition, lent.text, len, (const uint8_t *)"base", 4, lent.links, LINK_SLOTS, lent.params, PARAM_SLOTS,
                                links, params, 0);
    a.resolved = capstan_resolved_context(edition, lent.text, len, (const uint8_t *)"a:/c", 4, lent.links, LINK_SLOTS, lent.params,
                                          PARAM_SLOTS, links, params, 0, lent.resolved, OCTETS);
    a.value = capstan_value(edition, lent.text, len, lent.links, LINK_SLOTS, lent.params, PARAM_SLOTS, links, params, 0, 0, lent.value,
                            OCTETS);
    a.title = capstan_title(edition, lent.text, len, lent.links, LINK_SLOTS, lent.params, PARAM_SLOTS, links, params, 0, lent.title,
                            OCTETS);
    a.write = capstan_write(edition, lent.text, len, lent.links, LINK_SLOTS, lent.params, PARAM_SLOTS, links, params, lent.form, OCTETS);
    return a;
}

/* What is due of a link with that one parameter, whose value is `b` at that place: a title, but no right extended value. */
static asked due_of(size_t code, size_t place)
{
    asked due = { { CAPSTAN_NOT_FOUND, 0 }, { CAPSTAN_DONE, CAPSTAN_BASE, 0, 4 }, { CAPSTAN_DONE, 4 }, { CAPSTAN_DONE, 1 },
                  { CAPSTAN_NOT_FOUND, 0 }, { CAPSTAN_NO_RELATION, 0 } };
    const capstan_search_answer found = { CAPSTAN_DONE, 0 };
    const capstan_context_answer anchor = { CAPSTAN_DONE, CAPSTAN_TEXT, place, place + 1 };
    const capstan_length_answer title = { CAPSTAN_DONE, 1 }, written = { CAPSTAN_DONE, 10 };

    if (code == CAPSTAN_REL) {
        due.search = found;
        due.write = written;
    }
    if (code == CAPSTAN_ANCHOR)
        due.context = anchor;
    if (code == CAPSTAN_TITLE)
        due.title = title;
    return due;
}

/* A table of one link and one parameter, made by hand, with each number for its code. */
static void test_made(size_t edition, size_t row)
{
    const char *name = rows[row].name;
    const size_t len = strlen(name);
    const size_t link[CAPSTAN_LINK_SLOTS] = { len, len + 1, 0, 1 };
    const asked due = due_of(rows[row].code, len);
    char text[OCTETS];

    snprintf(text, sizeof text, "%sb", name);
    for (size_t i = 0; i < NUMBERS; i++) {
        const size_t number = number_at(i), record[CAPSTAN_PARAM_SLOTS] = { 0, len, len, len + 1, CAPSTAN_TOKEN, number };
        fill(text);
        memcpy(lent.links, link, sizeof link);
        memcpy(lent.params, record, sizeof record);
        keep();
        const asked a = ask(edition, len + 1, 1, 1);
        if (number == rows[row].code) {
            expect(memcmp(&a, &due, sizeof a) == 0 && lent.value[0] == 'b', "a good table", text, number);
            expect(memcmp(lent.resolved, number == CAPSTAN_ANCHOR ? "a:/b" : "a:/c", 4) == 0, "a resolved context", text, number);
        } else {
            expect(memcmp(&a, &bad, sizeof a) == 0, "a bad table", text, number);
            expect(untouched(), "what was lent is changed", text, number);
        }
    }
}

/* Each number in each record of two links, also of parameters that no question is about. */
static void test_each_record(size_t edition)
{
    static const char text[] = "<a>;rel=b;title=c;d,<e>;f;HREFLANG=g;rev=h;hreflang=i";
    static const size_t codes[] = { CAPSTAN_REL, CAPSTAN_TITLE, 0, 0, CAPSTAN_HREFLANG, CAPSTAN_REV, CAPSTAN_HREFLANG };
    enum { PARAMS = sizeof codes / sizeof *codes };
    const size_t len = sizeof text - 1;

    for (size_t i = 0; i < PARAMS * NUMBERS; i++) {
        const size_t param = i / NUMBERS, number = number_at(i % NUMBERS);
        fill(text);
        const capstan_read_answer r = capstan_read(edition, lent.text, len, lent.links, LINK_SLOTS, lent.params, PARAM_SLOTS);
        size_t *code = lent.params + CAPSTAN_PARAM_SLOTS * param + CODE;
        expect(r.number == CAPSTAN_DONE && r.params == PARAMS && *code == codes[param], "a code of several", text, codes[param]);
        *code = number;
        keep();
        const asked a = ask(edition, len, r.links, r.params);
        if (number == codes[param])
            expect(a.search.number == CAPSTAN_DONE && a.context.number == CAPSTAN_DONE && a.resolved.number == CAPSTAN_DONE
                       && a.value.number == CAPSTAN_DONE && a.title.number == CAPSTAN_DONE && lent.title[0] == 'c'
                       && a.write.number == CAPSTAN_NO_RELATION,
                   "a good table of two links", text, number);
        else
            expect(memcmp(&a, &bad, sizeof a) == 0 && untouched(), "a bad table of two links", text, number);
    }
}

int main(void)
{
    for (size_t edition = 0; edition < EDITIONS; edition++) {
        for (size_t row = 0; row < ROWS; row++) {
            test_read(edition, row);
            test_made(edition, row);
        }
        test_each_record(edition);
    }
    return failures != 0;
}
