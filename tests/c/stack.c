/*
 * How much of the stack the library takes: every function runs on a stack of its own, filled beforehand, on a header of one target, one
 * that is noted whole, one with anchors, and one of as many links as fit; and on the longest base. A walk, which calls itself for each
 * step, runs apart from the others, through a pack of such a value that leads to itself.
 */
#define _XOPEN_SOURCE 700
#include "capstan.h"

#include <stdio.h>
#include <string.h>
#include <ucontext.h>

enum { LIMIT = 8192, LINKS = 2731, PARAMS = 4096, STACK = 65536, ALLOWED = 8192, WALK_ALLOWED = 49152, FILLED = 0xAA };

static const char *const items[] = { "<a", "<a>;rel=\"b c\";title=d;e,", "<a>;anchor=\"b\\/\\..\",", "<>," };
enum { ITEMS = sizeof items / sizeof *items };

static unsigned char stack[STACK];
static ucontext_t test, own;
static const char *item;
static uint8_t header[LIMIT], buffer[LIMIT], base[LIMIT], out[LIMIT], catalogue[2 * LIMIT];
static size_t links[LINKS * CAPSTAN_LINK_SLOTS], params[PARAMS * CAPSTAN_PARAM_SLOTS];

#define COUNT(slots) (sizeof slots / sizeof *slots)
#define TABLE header, length, links, COUNT(links), params, COUNT(params), read.links, read.params

/* The header: the item again and again, or, where it doesn't end, its octets up to the limit. */
static size_t make(void)
{
    const size_t each = strlen(item);
    size_t length = 0;
    if (item[each - 1] == ',')
        for (; length + each <= LIMIT; length += each)
            memcpy(header + length, item, each);
    else {
        memset(header, item[1], length = LIMIT);
        header[0] = '<';
        header[LIMIT - 1] = '>';
    }
    return length;
}

/* The longest base: segments, with dots among them. */
static void make_base(void)
{
    for (size_t i = 0; i < LIMIT; i++) base[i] = (uint8_t)"b/../c/"[i % 7];
    memcpy(base, "a:/", 3);
}

static void call_each(void)
{
    const size_t length = make();
    make_base();
    const capstan_read_answer read = capstan_read(CAPSTAN_RFC5988, header, length, links, COUNT(links), params, COUNT(params));
    const capstan_feed_answer fed = capstan_feed(capstan_start(CAPSTAN_RFC8288), header, length, buffer, LIMIT);
    capstan_finish(fed.next, buffer, LIMIT, links, COUNT(links), params, COUNT(params));
    capstan_search(CAPSTAN_RFC8288, TABLE, header, 1);
    capstan_context(CAPSTAN_RFC8288, header, length, header, 1, links, COUNT(links), params, COUNT(params), read.links, read.params, 0);
    capstan_value(CAPSTAN_RFC8288, TABLE, 0, 0, out, LIMIT);
    capstan_title(CAPSTAN_RFC8288, TABLE, 0, out, LIMIT);
    capstan_write(CAPSTAN_RFC8288, TABLE, out, LIMIT);
    capstan_decode(header, length, out, LIMIT);
    capstan_resolve(base + 3, LIMIT - 3, base, LIMIT, out, LIMIT);
    capstan_resolve(base + 3, LIMIT - 3, base, 3, out, LIMIT);
    capstan_resolved_context(CAPSTAN_RFC8288, header, length, base, LIMIT, links, COUNT(links), params, COUNT(params), read.links,
                             read.params, 0, out, LIMIT);
    capstan_name_code(header, length);
    capstan_compare(header, length, buffer, LIMIT);
}

/* The pack's URI, a link to itself, and as much of the header as fits behind that, with the octet that it ends with. */
static size_t make_catalogue(size_t length)
{
    static const char own[] = "a:b\t<>;rel=\"next prev\",";
    const size_t before = sizeof own - 1, room = LIMIT - (before - strlen("a:b\t"));
    size_t kept = length < room ? length : room;
    while (item[strlen(item) - 1] == ',' && kept % strlen(item) != 0)
        kept--;
    memcpy(catalogue, own, before);
    memcpy(catalogue + before, header, kept);
    catalogue[before + kept - 1] = header[length - 1];
    catalogue[before + kept] = '\n';
    return before + kept + 1;
}

static int walked;

static capstan_walk_answer walk_all(size_t length, int32_t steps)
{
    return capstan_walk(catalogue, length, 0, steps, links, COUNT(links), params, COUNT(params), out, LIMIT);
}

static void walk(void)
{
    const size_t length = make_catalogue(make());
    const capstan_walk_answer forth = walk_all(length, CAPSTAN_STEP_LIMIT), back = walk_all(length, -CAPSTAN_STEP_LIMIT);
    walked = forth.steps == CAPSTAN_STEP_LIMIT && back.steps == CAPSTAN_STEP_LIMIT;
}

/* How many octets of the stack the calls took. */
static size_t taken(void)
{
    size_t left = 0;
    while (left < STACK && stack[left] == FILLED)
        left++;
    return STACK - left;
}

static int run_apart(void (*calls)(void))
{
    memset(stack, FILLED, STACK);
    if (getcontext(&own) != 0)
        return 0;
    own.uc_stack.ss_sp = stack;
    own.uc_stack.ss_size = STACK;
    own.uc_link = &test;
    makecontext(&own, calls, 0);
    return swapcontext(&test, &own) == 0;
}

int main(void)
{
    for (int i = 0; i < ITEMS; i++) {
        item = items[i];
        if (!run_apart(call_each))
            return puts("the calls can't be made on a stack of their own"), 1;
        if (taken() >= ALLOWED)
            return printf("\"%s\": %d octets of the stack were taken\n", item, (int)taken()), 1;
        if (!run_apart(walk) || !walked)
            return printf("\"%s\": the walk can't be made on a stack of its own\n", item), 1;
        if (taken() >= WALK_ALLOWED)
            return printf("\"%s\": %d octets of the stack were taken by a walk\n", item, (int)taken()), 1;
    }
    return 0;
}
