/* Finds the next and the previous pack in the Link header of a dialogue pack, and their titles: pack_links [HEADER] */
#include "capstan.h"

#include <stdio.h>
#include <string.h>

/* Room for 32 links and 128 parameters. */
enum { LINK_SLOTS = 32 * CAPSTAN_LINK_SLOTS, PARAM_SLOTS = 128 * CAPSTAN_PARAM_SLOTS };

static const char sample[] = "</packs/6>; rel=prev; title=\"Harbour, part 1\", "
                             "</packs/8>; rel=\"next last\"; title=\"Harbour, part 3\"; title*=UTF-8'de'H%C3%A4fen%2C%20Teil%203";

static const uint8_t *text;
static size_t text_len;
static size_t links[LINK_SLOTS];
static size_t params[PARAM_SLOTS];
static capstan_read_answer table;

static void print_part(size_t start, size_t end)
{
    fwrite(text + start, 1, end - start, stdout);
}

/* Prints the languages that the link names: a link may have several parameters `hreflang`, and each of them is kept. */
static void print_languages(size_t number)
{
    static uint8_t language[CAPSTAN_LIMIT]; /* enough for any value, so none is refused */
    const size_t *link = links + CAPSTAN_LINK_SLOTS * number;

    for (size_t place = 0; place < link[3]; place++) {
        const size_t *param = params + CAPSTAN_PARAM_SLOTS * (link[2] + place);
        if (param[5] != CAPSTAN_HREFLANG) /* the code of its name */
            continue;
        capstan_length_answer meant = capstan_value(CAPSTAN_RFC8288, text, text_len, links, LINK_SLOTS, params, PARAM_SLOTS,
                                                    table.links, table.params, number, place, language, sizeof language);
        printf(", in ");
        fwrite(language, 1, meant.length, stdout);
    }
}

/* Prints `?` for control octets: a `title*` may give any of them, and with an end of line a header could forge lines of the output. */
static void print_visibly(const uint8_t *octets, size_t count)
{
    for (size_t i = 0; i < count; i++)
        putchar(octets[i] < 32 || octets[i] == 127 ? '?' : octets[i]);
}

/* Prints a line with the link's title, if it has one: a title in the player's language if the header has it, else the plain one. */
static void print_title(size_t number)
{
    static uint8_t title[CAPSTAN_LIMIT]; /* enough for any title, so none is refused for want of room */
    capstan_length_answer told = capstan_title(CAPSTAN_RFC8288, text, text_len, links, LINK_SLOTS, params, PARAM_SLOTS, table.links,
                                               table.params, number, title, sizeof title);
    if (told.number != CAPSTAN_DONE)
        return;
    printf("  title: ");
    print_visibly(title, told.length);
    putchar('\n');
}

/*
 * Prints the target of the first link that has the relation, its languages, and what it is a link of if not of the pack itself; its
 * title stands on the next line.
 */
static void print_link(const char *relation)
{
    capstan_search_answer found = capstan_search(CAPSTAN_RFC8288, text, text_len, links, LINK_SLOTS, params, PARAM_SLOTS, table.links,
                                                 table.params, (const uint8_t *)relation, strlen(relation));
    if (found.number != CAPSTAN_DONE) {
        printf("%s: none\n", relation);
        return;
    }
    const size_t *link = links + CAPSTAN_LINK_SLOTS * found.link;
    printf("%s: ", relation);
    print_part(link[0], link[1]);
    print_languages(found.link);

    const uint8_t *base = text; /* the pack's own address would stand here; this program has none, and passes no octets of it */
    capstan_context_answer context = capstan_context(CAPSTAN_RFC8288, text, text_len, base, 0, links, LINK_SLOTS, params, PARAM_SLOTS,
                                                     table.links, table.params, found.link);
    if (context.source == CAPSTAN_TEXT) {
        printf(", a link of <");
        print_part(context.start, context.end);
        putchar('>');
    }
    putchar('\n');
    print_title(found.link);
}

int main(int argc, char **argv)
{
    if (argc > 2) {
        fprintf(stderr, "pack_links: one header is read, and %d were given\n", argc - 1);
        return 2;
    }
    const char *header = argc > 1 ? argv[1] : sample;
    text = (const uint8_t *)header;
    text_len = strlen(header);
    table = capstan_read(CAPSTAN_RFC8288, text, text_len, links, LINK_SLOTS, params, PARAM_SLOTS);
    if (table.number != CAPSTAN_DONE) {
        fprintf(stderr, "pack_links: the header is refused with number %zu at place %zu\n", table.number, table.place);
        return 1;
    }
    print_link("next");
    print_link("prev");
    return 0;
}
