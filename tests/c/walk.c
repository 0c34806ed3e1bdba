/*
 * Walks through catalogues: every end, circles, the limits, and what is no catalogue. What is lent for work may hold anything before and
 * afterwards, so each walk is asked with several contents, and nothing but that is touched. Of every two things that are wrong, the one
 * whose number comes first is told.
 */
#include "capstan.h"

#include <stdio.h>
#include <string.h>

enum { LINK_SLOTS = 4 * CAPSTAN_LINK_SLOTS, PARAM_SLOTS = 4 * CAPSTAN_PARAM_SLOTS, GUARD = 16, FILLS = 3 };
enum { OCTETS = CAPSTAN_CATALOGUE_LIMIT + 64 };

/* What is lent, with a guard on both sides, which holds what each fill puts there. */
static struct {
    size_t links[GUARD + LINK_SLOTS + GUARD], params[GUARD + PARAM_SLOTS + GUARD];
    uint8_t work[GUARD + CAPSTAN_LIMIT + GUARD];
} lent, before;
static uint8_t catalogue[OCTETS], catalogue_before[OCTETS];
static int failures;

static const uint8_t fills[FILLS] = { 0x00, 0xFF, '<' };

/* Shows the first failure alone: one slip makes many wrong answers. */
static void expect(int holds, const char *what, const char *text, size_t start, int32_t steps)
{
    if (!holds && failures++ == 0)
        printf("walk: %s, from pack %zu, %ld steps: %.60s\n", what, start, (long)steps, text);
}

static void fill(uint8_t octet)
{
    memset(&lent, octet, sizeof lent);
    for (size_t i = 0; i < GUARD; i++) lent.links[i] = lent.params[i] = i;
    memcpy(&before, &lent, sizeof lent);
    memcpy(catalogue_before, catalogue, OCTETS);
}

/* All but the slots and octets that were lent is as it was. */
static int untouched(size_t link_slots, size_t param_slots, size_t work_len)
{
    memcpy(before.links + GUARD, lent.links + GUARD, link_slots * sizeof *lent.links);
    memcpy(before.params + GUARD, lent.params + GUARD, param_slots * sizeof *lent.params);
    memcpy(before.work + GUARD, lent.work + GUARD, work_len);
    return memcmp(&lent, &before, sizeof lent) == 0 && memcmp(catalogue, catalogue_before, OCTETS) == 0;
}

typedef struct { size_t link_slots, param_slots, work_len; } room;
static const room all = { LINK_SLOTS, PARAM_SLOTS, CAPSTAN_LIMIT };

/* Walks through the catalogue that stands there, with each content of what is lent. */
static capstan_walk_answer walk_in(room r, size_t len, size_t start, int32_t steps)
{
    capstan_walk_answer first = { SIZE_MAX, 0, 0, 0 };

    for (size_t i = 0; i < FILLS; i++) {
        fill(fills[i]);
        const capstan_walk_answer a = capstan_walk(catalogue, len, start, steps, lent.links + GUARD, r.link_slots, lent.params + GUARD,
                                                   r.param_slots, lent.work + GUARD, r.work_len);
        if (i == 0)
            first = a;
        expect(memcmp(&a, &first, sizeof a) == 0, "another answer with other contents", (const char *)catalogue, start, steps);
        expect(untouched(r.link_slots, r.param_slots, r.work_len), "more than what was lent is touched", (const char *)catalogue, start,
               steps);
    }
    return first;
}

static capstan_walk_answer walk(size_t len, size_t start, int32_t steps)
{
    return walk_in(all, len, start, steps);
}

static size_t put(size_t end, const char *text)
{
    memcpy(catalogue + end, text, strlen(text));
    return end + strlen(text);
}

static size_t put_again(size_t end, char octet, size_t times)
{
    memset(catalogue + end, octet, times);
    return end + times;
}

static size_t set(const char *text)
{
    memset(catalogue, 0, OCTETS);
    return put(0, text);
}

static int ended(capstan_walk_answer a, size_t end, size_t pack, size_t steps)
{
    return a.number == CAPSTAN_DONE && a.end == end && a.pack == pack && a.steps == steps;
}

static int refused(capstan_walk_answer a, size_t number)
{
    return a.number == number && a.end == CAPSTAN_NO_END && a.pack == 0 && a.steps == 0;
}

/* One step from `a:/b/c?d`, whose value this is, where `a:/b/e` is the only other pack. */
static const struct { const char *value; int32_t steps; size_t end; } rows[] = {
    { "<e>;rel=next", 1, CAPSTAN_ARRIVED }, { "<e>;rel=next", -1, CAPSTAN_NO_LINK }, { "<e>;rel=prev", -1, CAPSTAN_ARRIVED },
    { "<e>;rel=prev", 1, CAPSTAN_NO_LINK }, { "", 1, CAPSTAN_NO_LINK }, { ",", -1, CAPSTAN_NO_LINK },
    { "<e>;REL=\"x nE\\xT\"", 1, CAPSTAN_ARRIVED }, { "<e>;rel=previous", -1, CAPSTAN_NO_LINK }, { "<e>;rev=next", 1, CAPSTAN_NO_LINK },
    { "<e>;rel=first;rel=next", 1, CAPSTAN_NO_LINK }, { "<x>;rel=up,<e>;rel=next,<y>;rel=next", 1, CAPSTAN_ARRIVED },
    { "<y>;rel=next,<e>;rel=next", 1, CAPSTAN_NO_PACK }, { "\t<e>\t;\trel\t=\tnext\t", 1, CAPSTAN_ARRIVED },
    /* links with an anchor are passed over, whatever it holds */
    { "<e>;rel=next;anchor", 1, CAPSTAN_NO_LINK }, { "<e>;rel=next;anchor=\"\"", 1, CAPSTAN_NO_LINK },
    { "<e>;Anchor=x;rel=next", 1, CAPSTAN_NO_LINK }, { "<y>;rel=next;anchor,<e>;rel=next", 1, CAPSTAN_ARRIVED },
    { "<e>;rel=next;anchor=\"a:/b/c?d\",<y>;rel=next", 1, CAPSTAN_NO_PACK }, { "<e>;rel=next;anchors=x", 1, CAPSTAN_ARRIVED },
    /* what is resolved is looked for octet by octet */
    { "<./e>;rel=next", 1, CAPSTAN_ARRIVED }, { "</b/e>;rel=next", 1, CAPSTAN_ARRIVED }, { "<../b/x/../e>;rel=next", 1, CAPSTAN_ARRIVED },
    { "<a:/b/e>;rel=next", 1, CAPSTAN_ARRIVED }, { "<A:/b/e>;rel=next", 1, CAPSTAN_NO_PACK }, { "<E>;rel=next", 1, CAPSTAN_NO_PACK },
    { "<%65>;rel=next", 1, CAPSTAN_NO_PACK }, { "<e/>;rel=next", 1, CAPSTAN_NO_PACK }, { "<e?>;rel=next", 1, CAPSTAN_NO_PACK },
    { "<e#>;rel=next", 1, CAPSTAN_NO_PACK }, { "<e#f>;rel=next", 1, CAPSTAN_NO_PACK }, { "<#>;rel=next", 1, CAPSTAN_NO_PACK },
    { "<?>;rel=next", 1, CAPSTAN_NO_PACK }, { "<//b/e>;rel=next", 1, CAPSTAN_NO_PACK },
};

static void test_steps(void)
{
    for (size_t i = 0; i < sizeof rows / sizeof *rows; i++) {
        const size_t arrived = rows[i].end == CAPSTAN_ARRIVED;
        const size_t len = put(put(put(set("a:/b/c?d\t"), rows[i].value), "\na:/b/e\t"), "\n");
        expect(ended(walk(len, 0, rows[i].steps), rows[i].end, arrived, arrived), "a step", rows[i].value, 0, rows[i].steps);
        expect(ended(walk(len, 0, 0), CAPSTAN_ARRIVED, 0, 0), "no step", rows[i].value, 0, 0);
        expect(ended(walk(len, 1, rows[i].steps), CAPSTAN_NO_LINK, 1, 0), "a step from the other", rows[i].value, 1, rows[i].steps);
    }
}

/* A row of chapters: nothing goes past the first or the last. */
static void test_chapters(void)
{
    enum { CHAPTERS = 4 };
    const char *text = "a:/0\t<1>;rel=next\na:/1\t<0>;rel=prev,<2>;rel=next\na:/2\t<3>;rel=next,<1>;rel=prev\na:/3\t<2>;rel=prev\n";
    const size_t len = set(text);

    for (int32_t start = 0; start < CHAPTERS; start++)
        for (int32_t steps = -CAPSTAN_STEP_LIMIT - 2; steps <= CAPSTAN_STEP_LIMIT + 2; steps++) {
            const int32_t wanted = start + steps, last = wanted < 0 ? 0 : wanted < CHAPTERS ? wanted : CHAPTERS - 1;
            const size_t end = last == wanted ? CAPSTAN_ARRIVED : CAPSTAN_NO_LINK;
            const size_t taken = (size_t)(last < start ? start - last : last - start);
            const capstan_walk_answer a = walk(len, (size_t)start, steps);
            const int out = steps < -CAPSTAN_STEP_LIMIT || steps > CAPSTAN_STEP_LIMIT;
            expect(out ? refused(a, CAPSTAN_OUT_OF_RANGE) : ended(a, end, (size_t)last, taken), "chapters", text, (size_t)start, steps);
        }
}

/* A circle of three, and packs that lead to themselves. */
static void test_circles(void)
{
    const char *text = "a:0\t<a:1>;rel=next,<>;rel=prev\na:1\t<a:2>;rel=\"next prev\"\na:2\t<a:0>;rel=next,<a:1>;rel=prev\n";
    const size_t len = set(text);

    for (int32_t steps = 0; steps <= CAPSTAN_STEP_LIMIT; steps++) {
        const size_t taken = (size_t)steps;
        for (size_t start = 0; start < 3; start++)
            expect(ended(walk(len, start, steps), CAPSTAN_ARRIVED, (start + taken) % 3, taken), "a circle", text, start, steps);
        expect(ended(walk(len, 0, -steps), CAPSTAN_ARRIVED, 0, taken), "to itself", text, 0, -steps);
        expect(ended(walk(len, 1, -steps), CAPSTAN_ARRIVED, 1 + taken % 2, taken), "to and fro", text, 1, -steps);
    }
}

/* Where a walk of m arrives, walking n from there ends as walking m + n does, with m steps fewer. */
static void test_onwards(void)
{
    const char *text = "a:0\t<a:1>;rel=next\na:1\t<a:2>;rel=next,<a:0>;rel=prev\na:2\t<a:9>;rel=next,<a:3>;rel=prev\na:3\t<a:2>;rel=prev\n";
    const size_t len = set(text);

    for (size_t start = 0; start < 4; start++)
        for (int32_t m = -6; m <= 6; m++)
            for (int32_t n = m < 0 ? -6 : 0; n <= (m < 0 ? 0 : 6); n++) {
                const capstan_walk_answer first = walk(len, start, m), whole = walk(len, start, m + n);
                const capstan_walk_answer rest = walk(len, first.pack, n);
                if (first.end == CAPSTAN_ARRIVED)
                    expect(ended(whole, rest.end, rest.pack, rest.steps + (size_t)(m < 0 ? -m : m)), "walking on", text, start, m + n);
                else
                    expect(memcmp(&whole, &first, sizeof whole) == 0, "walking on past an end", text, start, m + n);
            }
}

static const char *const bad[] = {
    "\n", "\n\n", "a:b", "a:b\n", "a:b\t", "a:b\t<c>", "a:b\t\n\n", "\na:b\t\n", "a:b\t\na:c", "a:b\t\n\t\n", "\t\n", " a:b\t\n",
    "a:b \t\n", "b\t\n", "/b\t\n", "//h/b\t\n", ":b\t\n", "1:b\t\n", "a:b#\t\n", "a:b#c\t\n", "a:[\t\n", "a:%4\t\n", "a:b\r\t\n",
    "a:b\t\r\n", "a:b\t<\n", "a:b\t<1:c>\n", "a:b\t<c>;\n", "a:b\t<c>;rel=d/e\n", "a:b\t<c>;x=\"\n\"\n", "a:b\t\na:b\t\n",
    "a:b\t<c>\na:c\t\na:b\t<d>\n", "a:b\t<c>,<d>,<e>,<f>,<g>\n", "a:b\t<c>;v;w;x;y;z\n", "a:b\t\na:c\t<c>;v;w;x;y;z\n",
};
static const struct { const char *text; size_t packs; } good[] = {
    { "", 0 }, { "a:\t\n", 1 }, { "a:\t\t\t\n", 1 }, { "a:b\t\na:B\t\nA:b\t\n", 3 }, { "a:%41\t\na:%4a\t\na:A\t\n", 3 },
    { "a:?\t\na:??\t\na://\t\na:///\t\n", 4 }, { "a:b\t<c>,<d>,<e>,<f>,,\na:c\t<c>;w;x;y;z\n", 2 },
};

static void test_catalogues(void)
{
    for (size_t i = 0; i < sizeof bad / sizeof *bad; i++) {
        const size_t len = set(bad[i]);
        for (size_t start = 0; start < 3; start++)
            for (int32_t steps = -1; steps < 2; steps++)
                expect(refused(walk(len, start, steps), CAPSTAN_BAD_CATALOGUE), "a bad catalogue", bad[i], start, steps);
    }
    for (size_t i = 0; i < sizeof good / sizeof *good; i++) {
        const size_t len = set(good[i].text), packs = good[i].packs;
        for (size_t start = 0; start < packs; start++)
            expect(ended(walk(len, start, 0), CAPSTAN_ARRIVED, start, 0), "a good catalogue", good[i].text, start, 0);
        expect(refused(walk(len, packs, 0), CAPSTAN_NO_SUCH_LINK), "a start past the packs", good[i].text, packs, 0);
        expect(refused(walk(len, SIZE_MAX, 1), CAPSTAN_NO_SUCH_LINK), "the largest start", good[i].text, SIZE_MAX, 1);
    }
}

/* Octets, packs, and how long a URI and what is resolved may be. */
static void test_limits(void)
{
    for (size_t over = 0; over < 3; over++) {
        size_t len = put(put_again(set("a:"), 'b', CAPSTAN_CATALOGUE_LIMIT - 5 + over), "\t\n");
        capstan_walk_answer a = walk(len, 0, 0);
        expect(over == 2 ? refused(a, CAPSTAN_BAD_CATALOGUE) : ended(a, CAPSTAN_ARRIVED, 0, 0), "octets of a catalogue", "", 0, 0);
        a = walk(len, 0, 1);
        expect(over == 2 ? refused(a, CAPSTAN_BAD_CATALOGUE) : ended(a, CAPSTAN_NO_LINK, 0, 0), "octets of a catalogue", "", 0, 1);

        const size_t packs = CAPSTAN_PACK_LIMIT - 1 + over;
        len = set("");
        for (size_t i = 0; i < packs; i++) {
            char line[64];
            snprintf(line, sizeof line, "a:%zu\t<a:%zu>;rel=next\n", i, i + 1);
            len = put(len, line);
        }
        a = walk(len, packs - 3, 9);
        expect(over == 2 ? refused(a, CAPSTAN_BAD_CATALOGUE) : ended(a, CAPSTAN_NO_PACK, packs - 1, 2), "packs", "", packs - 3, 9);

        /* a URI of 8,191 octets and more that the target needs nothing of but its scheme, and one that it stands behind */
        len = put(put_again(set("a:"), 'b', CAPSTAN_LIMIT - 3 + over), "\t<c>;rel=next,</>;rel=prev\n");
        const size_t end = over == 2 ? CAPSTAN_NO_TARGET : CAPSTAN_NO_PACK;
        expect(ended(walk(len, 0, -1), end, 0, 0), "a long URI", "", 0, -1);
        expect(ended(walk(len, 0, 1), end, 0, 0), "a long URI", "", 0, 1);
        len = put(put_again(set("a:/"), 'b', CAPSTAN_LIMIT - 6 + over), "/\t<c>;rel=next\n");
        len = put(put_again(put(len, "a:/"), 'b', CAPSTAN_LIMIT - 6 + over), "/c\t\n");
        a = walk(len, 0, 2);
        expect(over == 2 ? ended(a, CAPSTAN_NO_TARGET, 0, 0) : ended(a, CAPSTAN_NO_LINK, 1, 1), "a long result", "", 0, 2);

        len = put(put_again(set("a:b\t"), ' ', CAPSTAN_LIMIT - 1 + over), "\n");
        a = walk(len, 0, 0);
        expect(over == 2 ? refused(a, CAPSTAN_BAD_CATALOGUE) : ended(a, CAPSTAN_ARRIVED, 0, 0), "a long value", "", 0, 0);
    }
}

/* All that is lent for reading is each value's. */
static void test_rooms(void)
{
    const char *text = "a:b\t<c>,<d>\na:c\t<b>;x;rel=prev;rel=y\n";
    const size_t len = set(text);

    for (size_t links = 0; links <= LINK_SLOTS; links++)
        for (size_t params = 0; params <= PARAM_SLOTS; params++) {
            const room r = { links, params, CAPSTAN_LIMIT };
            const capstan_walk_answer a = walk_in(r, len, 1, -1);
            if (links < 2 * CAPSTAN_LINK_SLOTS || params < 2 * CAPSTAN_PARAM_SLOTS)
                expect(refused(a, CAPSTAN_BAD_CATALOGUE), "too little room", text, links, (int32_t)params);
            else
                expect(ended(a, CAPSTAN_ARRIVED, 0, 1), "room enough", text, links, (int32_t)params);
        }
}

/* What can be wrong with a call, in the order of the numbers. */
enum { RANGE, CATALOGUE, START, WORK, KINDS };
static const size_t numbers[KINDS] = { CAPSTAN_OUT_OF_RANGE, CAPSTAN_BAD_CATALOGUE, CAPSTAN_NO_SUCH_LINK, CAPSTAN_NO_OUTPUT_ROOM };
static const int32_t too_far[] = { INT32_MIN, INT32_MIN + 1, -CAPSTAN_STEP_LIMIT - 1, CAPSTAN_STEP_LIMIT + 1, 128, 256, 65536, INT32_MAX };
static const int32_t in_range[] = { -CAPSTAN_STEP_LIMIT, -2, -1, 0, 1, 2, 3, CAPSTAN_STEP_LIMIT };
enum { STEPS = sizeof too_far / sizeof *too_far };

static void test_first(size_t one, size_t other)
{
    static const size_t starts[] = { 0, 1, 2, SIZE_MAX }, works[] = { CAPSTAN_LIMIT, CAPSTAN_LIMIT, 0, CAPSTAN_LIMIT - 1 };
    const int range = one == RANGE || other == RANGE, start = one == START || other == START, work = one == WORK || other == WORK;
    const char *text = one == CATALOGUE || other == CATALOGUE ? "a:b\t<>;rel=next\na:c" : "a:b\t<>;rel=next\na:c\t\n";
    const size_t len = set(text);

    for (size_t i = 0; i < STEPS * 4; i++) {
        const room r = { LINK_SLOTS, PARAM_SLOTS, works[2 * work + i % 2] };
        const size_t from = starts[2 * start + i / 2 % 2];
        const int32_t steps = range ? too_far[i / 4] : in_range[i / 4];
        expect(refused(walk_in(r, len, from, steps), numbers[one]), "which refusal comes first", text, from, steps);
    }
}

int main(void)
{
    test_steps();
    test_chapters();
    test_circles();
    test_onwards();
    test_catalogues();
    test_limits();
    test_rooms();
    for (size_t one = 0; one < KINDS; one++)
        for (size_t other = one; other < KINDS; other++) test_first(one, other);
    return failures != 0;
}
