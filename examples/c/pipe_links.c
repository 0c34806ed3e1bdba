/*
 * Lists the links of the Link header that comes through a pipe: printf '</packs/8>; rel=next' | pipe_links
 *
 * Each part is fed as it arrives, so a header that can't be right any more, or that never ends, is refused without waiting for the
 * rest. The input is the field value alone: an end of line is no part of it, and is refused as any other wrong octet.
 */
#include "capstan.h"

#include <stdio.h>
#include <unistd.h>

/* Parts are short, to have many of them. There is room for the links and parameters of any header. */
enum { PART = 16, LINK_SLOTS = 2731 * CAPSTAN_LINK_SLOTS, PARAM_SLOTS = 4095 * CAPSTAN_PARAM_SLOTS };

static uint8_t buffer[CAPSTAN_LIMIT];
static size_t links[LINK_SLOTS];
static size_t params[PARAM_SLOTS];

static int refused(size_t number, size_t place, size_t total)
{
    fprintf(stderr, "pipe_links: refused with number %zu at place %zu, %zu octets read\n", number, place, total);
    return 1;
}

static void print(const char *before, const uint8_t *octets, size_t count, const char *after)
{
    fputs(before, stdout);
    fwrite(octets, 1, count, stdout);
    fputs(after, stdout);
}

/* Prints each target, and below it the link's parameters by name with what their values mean. The text is what the buffer gathered. */
static void print_links(size_t text_len, capstan_read_answer table)
{
    static uint8_t value[CAPSTAN_LIMIT]; /* enough for any value, so none is refused */

    for (size_t number = 0; number < table.links; number++) {
        const size_t *link = links + CAPSTAN_LINK_SLOTS * number;
        print("", buffer + link[0], link[1] - link[0], "\n");
        for (size_t place = 0; place < link[3]; place++) {
            const size_t *param = params + CAPSTAN_PARAM_SLOTS * (link[2] + place);
            capstan_length_answer meant = capstan_value(CAPSTAN_RFC8288, buffer, text_len, links, LINK_SLOTS, params, PARAM_SLOTS,
                                                        table.links, table.params, number, place, value, sizeof value);
            print("  ", buffer + param[0], param[1] - param[0], "=");
            print("", value, meant.length, "\n");
        }
    }
}

int main(void)
{
    uint8_t part[PART];
    capstan_feeding state = capstan_start(CAPSTAN_RFC8288);
    size_t total = 0;
    ssize_t got;

    while ((got = read(STDIN_FILENO, part, sizeof part)) > 0) {
        capstan_feed_answer fed = capstan_feed(state, part, (size_t)got, buffer, sizeof buffer);
        total += (size_t)got;
        if (fed.number != CAPSTAN_DONE)
            return refused(fed.number, fed.place, total);
        state = fed.next;
    }
    if (got < 0) {
        perror("pipe_links");
        return 2;
    }
    capstan_read_answer table = capstan_finish(state, buffer, sizeof buffer, links, LINK_SLOTS, params, PARAM_SLOTS);
    if (table.number != CAPSTAN_DONE)
        return refused(table.number, table.place, total);
    print_links(total, table);
    return 0;
}
