/* Which texts are the same once folded, and how many pairs of octets were compared to tell it. */
#include "capstan.h"

#include <stdio.h>
#include <string.h>

enum { OCTETS = 40, LONG = 10000 };

/* By hand: texts, whether they are the same, and the pairs. */
static const struct { const char *a, *b; size_t same, pairs; } rows[] = {
    { "", "", 1, 0 },
    { "next", "next", 1, 4 },
    { "next", "NeXT", 1, 4 },
    { "TITLE*", "title*", 1, 6 },
    { "", "a", 0, 0 },
    { "next", "nexts", 0, 0 },
    { "xnext", "next", 0, 0 },
    { "next", "n\\ext", 0, 0 },
    { "next", "Text", 0, 1 },
    { "next", "NEST", 0, 3 },
    { "rel", "reV", 0, 3 },
    { "[", "{", 0, 1 },
    { "a@b", "A`B", 0, 2 },
    { "ab\300", "AB\340", 0, 3 },
};
enum { ROWS = sizeof rows / sizeof *rows };

static int failures;

/* Shows the octets, those that can't be printed as dots. */
static void show(const uint8_t *text, size_t len)
{
    putchar(' ');
    for (size_t i = 0; i < len && i < OCTETS; i++) putchar(text[i] > 32 && text[i] < 127 ? text[i] : '.');
}

/* Shows the first failure alone: one slip makes thousands of wrong answers. */
static void expect(int holds, const uint8_t *a, size_t a_len, const uint8_t *b, size_t b_len, const char *what)
{
    if (holds || failures++ > 0)
        return;
    printf("compare: %s, lengths %zu and %zu:", what, a_len, b_len);
    show(a, a_len);
    show(b, b_len);
    putchar('\n');
}

/* Asks with either text first. Both are lent as copies, with unequal octets behind them that no answer may count. */
static void check(const uint8_t *a, size_t a_len, const uint8_t *b, size_t b_len, size_t same, size_t pairs, const char *what)
{
    static uint8_t lent_a[LONG + 2], lent_b[LONG + 2];

    memcpy(lent_a, a, a_len);
    memcpy(lent_b, b, b_len);
    lent_a[a_len] = 1;
    lent_b[b_len] = 2;
    capstan_compare_answer one = capstan_compare(lent_a, a_len, lent_b, b_len);
    capstan_compare_answer other = capstan_compare(lent_b, b_len, lent_a, a_len);
    expect(one.same == same && one.pairs == pairs, a, a_len, b, b_len, what);
    expect(other.same == same && other.pairs == pairs, b, b_len, a, a_len, what);
    expect(memcmp(lent_a, a, a_len) == 0 && lent_a[a_len] == 1, a, a_len, b, b_len, "the first text was changed");
    expect(memcmp(lent_b, b, b_len) == 0 && lent_b[b_len] == 2, a, a_len, b, b_len, "the second text was changed");
}

static void test_rows(void)
{
    for (size_t row = 0; row < ROWS; row++) {
        const char *a = rows[row].a, *b = rows[row].b;
        check((const uint8_t *)a, strlen(a), (const uint8_t *)b, strlen(b), rows[row].same, rows[row].pairs, "a row by hand");
    }
}

/* Whether the octets are one, or a small letter and its capital. */
static int alike(int c, int d)
{
    static const char capitals[] = "ABCDEFGHIJKLMNOPQRSTUVWXYZ", smalls[] = "abcdefghijklmnopqrstuvwxyz";

    for (size_t i = 0; i < 26; i++)
        if ((c == capitals[i] && d == smalls[i]) || (c == smalls[i] && d == capitals[i]))
            return 1;
    return c == d;
}

/* Every pair of octets, alone and at each place among pairs that are alike; there nothing may spill from one pair into the next. */
static void test_octets(void)
{
    static const uint8_t left[] = { 'a', 'Z', 0, 255, '@', 'z', 127, 'A', '[' };
    static const uint8_t right[] = { 'A', 'z', 0, 255, '@', 'Z', 127, 'a', '[' };
    enum { PLACES = sizeof left };
    uint8_t a[PLACES], b[PLACES];

    for (int c = 0; c < 256; c++) {
        for (int d = 0; d < 256; d++) {
            const size_t same = (size_t)alike(c, d);
            for (size_t place = 0; place < PLACES; place++) {
                memcpy(a, left, PLACES);
                memcpy(b, right, PLACES);
                a[place] = (uint8_t)c;
                b[place] = (uint8_t)d;
                check(a, PLACES, b, PLACES, same, same ? PLACES : place + 1, "one pair of octets among others");
            }
            a[0] = (uint8_t)c;
            b[0] = (uint8_t)d;
            check(a, 1, b, 1, same, 1, "one pair of octets");
        }
    }
}

/* Texts that are the same but for case. */
static void fill(uint8_t *a, uint8_t *b, size_t len)
{
    for (size_t i = 0; i < len; i++) {
        a[i] = (uint8_t)((i % 3 == 0 ? 'A' : 'a') + i % 26);
        b[i] = (uint8_t)((i % 2 == 0 ? 'A' : 'a') + i % 26);
    }
}

/* Every place of the first unequal pair, with each place of a further one behind it, and with none. */
static void test_places(void)
{
    uint8_t a[OCTETS + 1], b[OCTETS + 1];

    for (size_t len = 0; len <= OCTETS; len++) {
        fill(a, b, len);
        check(a, len, b, len, 1, len, "the same but for case");
        for (size_t first = 0; first < len; first++) {
            for (size_t second = first + 1; second <= len; second++) {
                fill(a, b, len);
                a[first] = a[second] = '[';
                b[first] = b[second] = '{';
                check(a, len, b, len, 0, first + 1, "unequal pairs");
            }
        }
    }
}

/* Lengths that differ are enough, also where the one text begins the other. */
static void test_lengths(void)
{
    uint8_t a[OCTETS], b[OCTETS];

    fill(a, b, OCTETS);
    for (size_t a_len = 0; a_len <= OCTETS; a_len++)
        for (size_t b_len = 0; b_len <= OCTETS; b_len++)
            check(a, a_len, b, b_len, a_len == b_len, a_len == b_len ? a_len : 0, "lengths");
}

/* Texts past the limit of a header are compared too. */
static void test_long(void)
{
    static uint8_t a[LONG + 1], b[LONG + 1];

    fill(a, b, LONG + 1);
    check(a, LONG, b, LONG, 1, LONG, "long texts");
    check(a, LONG + 1, b, LONG, 0, 0, "long texts of two lengths");
    b[LONG - 1] = '-';
    check(a, LONG, b, LONG, 0, LONG, "long texts, the last pair unequal");
    b[CAPSTAN_LIMIT] = '-';
    check(a, LONG, b, LONG, 0, CAPSTAN_LIMIT + 1, "long texts, unequal past the limit");
    check(a, CAPSTAN_LIMIT, b, CAPSTAN_LIMIT, 1, CAPSTAN_LIMIT, "texts at the limit");
    b[0] = '-';
    check(a, LONG, b, LONG, 0, 1, "long texts, the first pair unequal");
}

int main(void)
{
    test_rows();
    test_octets();
    test_places();
    test_lengths();
    test_long();
    return failures != 0;
}
