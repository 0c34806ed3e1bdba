/*
 * Reads, searches and writes HTTP Link field values (RFC 8288, and the older RFC 5988), decodes their titles (RFC 8187), resolves their
 * targets and contexts (RFC 3986), and walks by them through a catalogue of packs.
 *
 * Every function is proved to answer as the definitions in crates/outcomes/specs settle it, the code of a name as that in
 * crates/grammar/specs/Kept.antt does, a comparison as those in crates/octets/specs/Fold.antt do, and a walk as those in
 * crates/catalogues/specs do, for every input; of a feeding's state that isn't as it was handed out they say what still holds. It
 * allocates nothing, keeps nothing between calls, calls nothing of the C library but memset, takes less than 8 KiB of stack, a walk less
 * than 48 KiB, and may run on several threads at once. Link with libcapstan.a (Linux on x86-64), which ./build-library puts under dist/ beside a
 * copy of this file. Octets may be any, NUL too; no text ends with one.
 *
 * What a caller must hold, since nothing checks it:
 *
 * - A pointer is not null, also where its count is 0 (the address of any object will do then), and is aligned for its type.
 * - It points to at least as many elements as the count behind it says. All of them have been set to some value, also the slots that
 *   reading is to fill and the octets of `out`, of `buffer` and of `work`, whatever they hold.
 * - What a function writes to (`links` and `params` of capstan_read, capstan_finish and capstan_walk, `out`, `buffer` of capstan_feed,
 *   `work`) overlaps no other argument.
 * - No other thread writes to an argument, or reads one that is written to, while the call runs.
 *
 * Tables. A link record is CAPSTAN_LINK_SLOTS numbers: target start, target end, number of its first parameter, count of its
 * parameters. A parameter record is CAPSTAN_PARAM_SLOTS numbers: name start, name end, value start, value end, form, code. Places are
 * octets of the text, counted from 0, and an end is one past the last octet. Form 0 is no value, whose places both are the name's end,
 * 1 a token, 2 a quoted string, whose span lies inside the quotes with its backslashes still there, and 3 a bare value that is no token.
 * The code is what capstan_name_code answers of the name, so a known name is found without a look at its octets. The
 * room is the count of slots divided by CAPSTAN_LINK_SLOTS or by CAPSTAN_PARAM_SLOTS, rounded down. No header has more than 2,731 links,
 * nor more than 4,095 parameters.
 *
 * Targets. What stands between `<` and `>` is a URI-reference by the grammar of RFC 3986, IP literals included, as
 * crates/references/specs/AppendixA.antt has it; in `<>` it is the empty one. `<1:a>` and `<a#b#c>` are malformed: `1:a` has a colon in
 * its first segment and no scheme before it, `a#b#c` has a `#` in its fragment. An `anchor` and any other value are not judged; where a
 * context is resolved, an `anchor` and the base are.
 *
 * Editions. In CAPSTAN_RFC8288 a bare value is a token; in CAPSTAN_RFC5988 it may also hold any of `( ) / : < = > ? @ [ ] { }`, and has
 * form 3 if it does. Nothing else differs: what the first edition accepts, the second reads to the same records. Functions over headers
 * and tables take the edition as their first argument, a feeding at its start; any other number is refused with CAPSTAN_UNKNOWN_EDITION,
 * before all else.
 *
 * Numbers. Each answer but those of capstan_start, capstan_name_code and capstan_compare begins with one; the other numbers of a refusal
 * are 0, except the place with CAPSTAN_MALFORMED and the next state of a feed, and a refusal leaves every slot and octet lent as it was.
 * After success, slots and octets past those used hold what they held. What is lent to capstan_walk for work is the exception: it may
 * hold anything afterwards.
 *
 * The functions over a table take its edition, text, slots and counts as capstan_read or capstan_finish was given and answered them.
 * They check all of it: tables of any other making are used if they are good, and refused with CAPSTAN_BAD_TABLE if they are not. A
 * table is good if the counts fit the rooms; the first link's parameters begin at number 0, each later link's where the former's end,
 * and the last ends at the count; every span lies in the text, start at most end; every target is a URI-reference;
 * names and values are what the edition's grammar derives for them in the form recorded, 0, 1 or 2, in CAPSTAN_RFC5988 also 3; every
 * code is that of its name; and no link has two parameters of one of the names of codes 1 to 6, whose list stands below. Spans may
 * overlap or stand in any order. A table that is good in CAPSTAN_RFC8288 is good in CAPSTAN_RFC5988 too, and is answered for alike; one
 * with a form 3 is good in CAPSTAN_RFC5988 alone.
 */
#ifndef CAPSTAN_H
#define CAPSTAN_H

#include <stddef.h>
#include <stdint.h>

#ifdef __cplusplus
extern "C" {
#endif

/*
 * The most octets of a header, a table's text, a written form or an extended value, of a reference and a base that are to be resolved,
 * and of the result; and the least of a buffer that gathers a header, and of what is lent to a walk for resolving.
 */
#define CAPSTAN_LIMIT 8192

/* The most octets of a catalogue, the most packs in one, and the most steps of a walk, either way. */
#define CAPSTAN_CATALOGUE_LIMIT 65536
#define CAPSTAN_PACK_LIMIT 256
#define CAPSTAN_STEP_LIMIT 64

/* The numbers of one link record, and of one parameter record. */
#define CAPSTAN_LINK_SLOTS 4
#define CAPSTAN_PARAM_SLOTS 6

/* The editions of the grammar. */
enum {
    CAPSTAN_RFC8288 = 0,
    CAPSTAN_RFC5988 = 1 /* the older one, whose bare values are wider */
};

enum {
    CAPSTAN_DONE = 0,
    CAPSTAN_TOO_LONG = 1,         /* one of what CAPSTAN_LIMIT speaks of has more octets; all feeds together, too */
    CAPSTAN_MALFORMED = 2,        /* the header isn't well formed; at a feed, what was fed is wrong, whatever follows */
    CAPSTAN_NO_LINK_ROOM = 3,     /* more links than room */
    CAPSTAN_NO_PARAM_ROOM = 4,    /* more kept parameters than room */
    CAPSTAN_BAD_TABLE = 5,        /* the table is not good */
    CAPSTAN_NO_RELATION = 6,      /* a link to be written has no `rel`, or one with no relations */
    CAPSTAN_NO_OUTPUT_ROOM = 7,   /* the output buffer is shorter than the result; a gathering one, or a walk's, than the limit */
    CAPSTAN_NO_SUCH_LINK = 8,     /* the link number, or the number of the pack that a walk starts from, is not below the count */
    CAPSTAN_NOT_FOUND = 9,        /* no such parameter, no link has the relation, or the link has no title */
    CAPSTAN_UNKNOWN_EDITION = 10, /* the edition is neither CAPSTAN_RFC8288 nor CAPSTAN_RFC5988 */
    CAPSTAN_BAD_EXTENDED = 11,    /* the extended value is wrong */
    CAPSTAN_BAD_BASE = 12,        /* the base is no URI, as one without a scheme is none */
    CAPSTAN_BAD_REFERENCE = 13,   /* the reference, or what the `anchor` means, is no URI-reference */
    CAPSTAN_OUT_OF_RANGE = 14,    /* more steps than CAPSTAN_STEP_LIMIT, either way */
    CAPSTAN_BAD_CATALOGUE = 15    /* the text is no catalogue, or a Link value in it is refused when read by itself */
};

/* The forms of a parameter's value. */
enum {
    CAPSTAN_NO_VALUE = 0,
    CAPSTAN_TOKEN = 1,
    CAPSTAN_QUOTED = 2,
    CAPSTAN_WIDER = 3 /* bare, but no token; in CAPSTAN_RFC5988 alone */
};

/*
 * The codes of parameters' names, whatever the case of A to Z. Of each of the names of codes 1 to 6 a link keeps the first parameter
 * only; of any other name it keeps each one.
 */
enum {
    CAPSTAN_REL = 1,        /* `rel` */
    CAPSTAN_ANCHOR = 2,     /* `anchor` */
    CAPSTAN_MEDIA = 3,      /* `media` */
    CAPSTAN_TITLE = 4,      /* `title` */
    CAPSTAN_TITLE_STAR = 5, /* `title*` */
    CAPSTAN_TYPE = 6,       /* `type` */
    CAPSTAN_HREFLANG = 7,   /* `hreflang` */
    CAPSTAN_REV = 8,        /* `rev` */
    CAPSTAN_OTHER_NAME = 0  /* any other, also the empty one */
};

/* Where a context lies. */
enum {
    CAPSTAN_NO_SOURCE = 0,
    CAPSTAN_TEXT = 1,
    CAPSTAN_BASE = 2
};

/* How a walk ends. */
enum {
    CAPSTAN_NO_END = 0,    /* it was refused */
    CAPSTAN_ARRIVED = 1,   /* all steps were taken */
    CAPSTAN_NO_LINK = 2,   /* the last pack has no link to follow */
    CAPSTAN_NO_TARGET = 3, /* it has one, but its target can't be resolved within CAPSTAN_LIMIT */
    CAPSTAN_NO_PACK = 4    /* the target is resolved, but no pack has it for its URI */
};

typedef struct { size_t number, place, links, params; } capstan_read_answer;
typedef struct { size_t number, link; } capstan_search_answer;
typedef struct { size_t number, source, start, end; } capstan_context_answer; /* source 1: text, 2: base; refused: 0, 0, 0 */
typedef struct { size_t number, length; } capstan_length_answer;
typedef struct { size_t same, pairs; } capstan_compare_answer; /* same is 1 or 0 */
typedef struct { size_t number, end, pack, steps; } capstan_walk_answer; /* end 1 to 4; refused: 0, 0, 0 */

/* What a feeding remembers between calls. Its numbers are the library's: a caller hands it back as it got it. */
typedef struct { size_t edition, phase, total, place, target, judged; } capstan_feeding;
typedef struct { size_t number, place; capstan_feeding next; } capstan_feed_answer;

/*
 * Reads a header, which is the field value without the field's name and colon, into the tables `links` and `params`.
 *
 * Answers the counts of links and of kept parameters: of names of codes 1 to 6 the first of a link, of others each. A malformed header
 * is refused with its place. If some target that a `>` closes is no URI-reference, and nothing up to and with that `>` is wrong
 * otherwise, it is the octet behind the `<` of the first such target. Else it is how many octets stand in the longest prefix that begins
 * some header, where any octets of URI-references, with two hex digits behind each `%`, pass for a target; one that is cut short has its
 * own length. So `<1:a>` has place 1, `<a>,<1:a>;` 5, and `<1:a`, `<1:a b>` and `<a%4>` have 4.
 * Numbers, in the order in which they are tested: CAPSTAN_UNKNOWN_EDITION, CAPSTAN_TOO_LONG, CAPSTAN_MALFORMED, CAPSTAN_NO_LINK_ROOM,
 * CAPSTAN_NO_PARAM_ROOM.
 */
capstan_read_answer capstan_read(size_t edition, const uint8_t *header, size_t header_len, size_t *links, size_t link_slots,
                                 size_t *params, size_t param_slots);

/*
 * A header that arrives in parts: a start, a feed for each part, and the finish. A lent buffer of at least CAPSTAN_LIMIT octets gathers
 * what was fed. State and buffer go from call to call as they were handed out: each feed is given the state that the call before
 * answered, and the same buffer, which nobody else writes to meanwhile. Parts may have any length, also 0. No feed looks again at
 * octets that were fed before it. The header is read in the edition that the start is given; if there is none of that number, the calls
 * on its state are refused.
 *
 * With any other state or buffer a call still touches nothing but what it is lent, an unknown edition and then a buffer under
 * CAPSTAN_LIMIT are refused first of all, a refusal changes nothing lent, and the answer is one of the numbers below.
 */
capstan_feeding capstan_start(size_t edition);

/*
 * Takes one part more. `next` is the state for the call behind this one, also after a refusal. What counts are the octets of all feeds
 * so far, those of feeds refused with CAPSTAN_TOO_LONG or CAPSTAN_MALFORMED too.
 *
 * CAPSTAN_DONE: nothing is wrong with them yet, and they stand at the buffer's start; the octets behind them are as they were.
 * CAPSTAN_TOO_LONG: they are over CAPSTAN_LIMIT; later feeds, also empty ones, and the finish answer so too. CAPSTAN_MALFORMED: no well
 * formed header begins with them; the place is the one that capstan_read would answer, and stays. A target that is no URI-reference is
 * told once its `>` is fed, and its place may lie in an earlier part; before that the answer is CAPSTAN_DONE, though no well formed
 * header may begin so, as with `<1:a`. CAPSTAN_UNKNOWN_EDITION: the feeding was started with no known one. CAPSTAN_NO_OUTPUT_ROOM: the
 * buffer is under CAPSTAN_LIMIT octets. With these two the part doesn't count, and `next` is `state`. A refusal leaves the buffer as it
 * was.
 * Numbers, in order: CAPSTAN_UNKNOWN_EDITION, CAPSTAN_NO_OUTPUT_ROOM, CAPSTAN_TOO_LONG, CAPSTAN_MALFORMED.
 */
capstan_feed_answer capstan_feed(capstan_feeding state, const uint8_t *part, size_t part_len, uint8_t *buffer, size_t buffer_len);

/*
 * Reads the octets of all feeds that count into the tables, and answers as capstan_read does of them, wherever the cuts fell. The text
 * of such a table is the buffer's first octets, as many as were fed, and its edition the feeding's. State and buffer stay usable: asked
 * again it answers the same, and feeds may go on.
 * Numbers, in order: CAPSTAN_UNKNOWN_EDITION, CAPSTAN_NO_OUTPUT_ROOM (the buffer is under CAPSTAN_LIMIT octets), and then the others of
 * capstan_read.
 */
capstan_read_answer capstan_finish(capstan_feeding state, const uint8_t *buffer, size_t buffer_len, size_t *links, size_t link_slots,
                                   size_t *params, size_t param_slots);

/*
 * Answers the code of a parameter's name, which compares with A to Z taken for a to z. Any octets of any length may be asked, also none:
 * nothing is refused, and what is not one of the names with a code is CAPSTAN_OTHER_NAME.
 */
size_t capstan_name_code(const uint8_t *name, size_t name_len);

/*
 * Compares two texts as names compare, with A to Z taken for a to z and no other octet for another. Answers whether they are the same, 1
 * or 0, and how many pairs of octets were compared. Lengths come first: if they differ, the texts are not the same, and no pair is
 * compared. Else pairs are compared in order, up to and with the first that is unequal; if none is, all were compared, and the texts are
 * the same. Any octets of any length may be asked, also none, and more than CAPSTAN_LIMIT: nothing is refused.
 */
capstan_compare_answer capstan_compare(const uint8_t *a, size_t a_len, const uint8_t *b, size_t b_len);

/*
 * Answers the lowest number of a link that has the relation. A link's relations are what stands between the spaces of its `rel` value;
 * they compare with A to Z taken for a to z, and with the backslashes of a quoted `rel` taken out. An empty query, or one with a space,
 * matches nothing.
 * Numbers, in order: CAPSTAN_UNKNOWN_EDITION, CAPSTAN_TOO_LONG, CAPSTAN_BAD_TABLE, CAPSTAN_NOT_FOUND.
 */
capstan_search_answer capstan_search(size_t edition, const uint8_t *text, size_t text_len, const size_t *links, size_t link_slots,
                                     const size_t *params, size_t param_slots, size_t link_count, size_t param_count,
                                     const uint8_t *relation, size_t relation_len);

/*
 * Answers where the context of link number `link` lies: its `anchor` value as written, with source CAPSTAN_TEXT, also where that is
 * empty; else the whole base, with source CAPSTAN_BASE. Start and end are octet places there, start at most end. The octets of the
 * base are not read.
 * Numbers, in order: CAPSTAN_UNKNOWN_EDITION, CAPSTAN_TOO_LONG, CAPSTAN_BAD_TABLE, CAPSTAN_NO_SUCH_LINK.
 */
capstan_context_answer capstan_context(size_t edition, const uint8_t *text, size_t text_len, const uint8_t *base, size_t base_len,
                                       const size_t *links, size_t link_slots, const size_t *params, size_t param_slots,
                                       size_t link_count, size_t param_count, size_t link);

/*
 * Writes the meaning of a parameter's value to `out`, and answers its length: the value with the backslashes of a quoted string taken
 * out. The parameter is the one at `place` within link number `link`, counted from 0. A parameter without a value has length 0. Room for
 * the value's span is always enough.
 * Numbers, in order: CAPSTAN_UNKNOWN_EDITION, CAPSTAN_TOO_LONG, CAPSTAN_BAD_TABLE, CAPSTAN_NO_SUCH_LINK, CAPSTAN_NOT_FOUND,
 * CAPSTAN_NO_OUTPUT_ROOM.
 */
capstan_length_answer capstan_value(size_t edition, const uint8_t *text, size_t text_len, const size_t *links, size_t link_slots,
                                    const size_t *params, size_t param_slots, size_t link_count, size_t param_count, size_t link,
                                    size_t place, uint8_t *out, size_t out_len);

/*
 * Writes the title of link number `link` to `out`, and answers its length: the octets that its `title*` gives if that is a right
 * extended value (capstan_decode says which are), and else the meaning of its `title`, both with the backslashes of a quoted string
 * taken out first. A `title*` that is wrong counts as none, one without a value too, and nothing of it is copied. One that is right and
 * gives no octets is a title of length 0, and one that gives more octets than `out_len` is refused with CAPSTAN_NO_OUTPUT_ROOM; `title`
 * is not taken in either case. What `title*` gives is UTF-8; the octets of a `title` are not judged, and may be any that stand in a
 * value. A `title*` may give any Unicode text, also control octets (below 32, and 127) such as ESC, LF and NUL, of which a `title` can
 * hold HTAB alone. Room for the span of the value that is taken is always enough.
 * Numbers, in order: CAPSTAN_UNKNOWN_EDITION, CAPSTAN_TOO_LONG, CAPSTAN_BAD_TABLE, CAPSTAN_NO_SUCH_LINK, CAPSTAN_NOT_FOUND (neither a
 * right `title*` nor a `title`), CAPSTAN_NO_OUTPUT_ROOM.
 */
capstan_length_answer capstan_title(size_t edition, const uint8_t *text, size_t text_len, const size_t *links, size_t link_slots,
                                    const size_t *params, size_t param_slots, size_t link_count, size_t param_count, size_t link,
                                    uint8_t *out, size_t out_len);

/*
 * Writes the octets that an extended value (RFC 8187) gives to `out`, and answers how many there are. The value is `UTF-8` in any case,
 * `'`, a language of letters, digits and hyphens, which may be empty, `'`, and then attribute characters, which are the octets of tokens
 * but for `*`, `'` and `%`, and triples, a `%` with two hex digits of either case. An attribute character gives itself, a triple the
 * octet of its digits; what they give together must be well formed UTF-8 by RFC 3629, without overlong forms, surrogates and numbers
 * over 10FFFF hex, or the value is wrong. Any other octet is wrong, a backslash too: capstan_value takes those of a quoted string out.
 * `UTF-8''` gives no octets, and `UTF-8''%00` one. A right value may give any Unicode text, also control octets (below 32, and 127) such
 * as ESC, LF and NUL, of which a header as written can hold HTAB alone. The editions don't differ in it, so it takes none. A refusal
 * leaves `out` as it was, also where the value is wrong only at its end. Room for the value itself is always enough.
 * Numbers, in order: CAPSTAN_TOO_LONG, CAPSTAN_BAD_EXTENDED, CAPSTAN_NO_OUTPUT_ROOM.
 */
capstan_length_answer capstan_decode(const uint8_t *value, size_t value_len, uint8_t *out, size_t out_len);

/*
 * Resolves a reference on a base by RFC 3986, sections 5.2, strict, and 5.3: writes the octets of the target to `out`, and answers how
 * many there are. The base must be a URI by that grammar, which has a scheme, with its fragment if it has one; the fragment is then
 * ignored. The reference must be a URI-reference, and may be empty: that gives the base without its fragment. A bad reference on a bad
 * base is refused for the base.
 *
 * Segments `.` and `..` go by section 5.2.4, and none reaches left of the path: `../../../g` on `http://a/b/c/d;p?q` gives `http://a/g`.
 * `%2e` is no dot. Where the base's path is taken as it is, as by `?y` and `#s`, its dots stay. Nothing else is changed, no case and no
 * triple, and the result isn't judged again: `.//c` on `a:/b` gives `a://c`, where `c` stands for a host. CAPSTAN_LIMIT octets of room
 * are always enough.
 * Numbers, in order: CAPSTAN_TOO_LONG (the reference or the base), CAPSTAN_BAD_BASE, CAPSTAN_BAD_REFERENCE, CAPSTAN_TOO_LONG (the
 * result), CAPSTAN_NO_OUTPUT_ROOM.
 */
capstan_length_answer capstan_resolve(const uint8_t *reference, size_t reference_len, const uint8_t *base, size_t base_len, uint8_t *out,
                                      size_t out_len);

/*
 * Writes the resolved context of link number `link` to `out`, and answers its length: what its `anchor` means, the value with the
 * backslashes of a quoted string taken out, resolved on the base as capstan_resolve says. An `anchor` without a value is the empty
 * reference. With no `anchor` it is the base without its fragment, dots and all; the base must be a URI then, too. CAPSTAN_LIMIT octets
 * of room are always enough.
 * Numbers, in order: CAPSTAN_UNKNOWN_EDITION, CAPSTAN_TOO_LONG (the text or the base), CAPSTAN_BAD_TABLE, CAPSTAN_NO_SUCH_LINK,
 * CAPSTAN_BAD_BASE, CAPSTAN_BAD_REFERENCE (the `anchor`), CAPSTAN_TOO_LONG (the result), CAPSTAN_NO_OUTPUT_ROOM.
 */
capstan_length_answer capstan_resolved_context(size_t edition, const uint8_t *text, size_t text_len, const uint8_t *base, size_t base_len,
                                               const size_t *links, size_t link_slots, const size_t *params, size_t param_slots,
                                               size_t link_count, size_t param_count, size_t link, uint8_t *out, size_t out_len);

/*
 * Writes a table to `out` as a header in one fixed form, and answers its length. Links are parted by a comma and a space; each is its
 * target in `<` and `>`, and for each parameter `;`, a space, the name in small letters, `=`, and the value, which stands bare if it is
 * a token, and else in quotes with a backslash before each quote and backslash. No links are no octets. Reading the octets written, in
 * either edition, gives the same links with the same meanings. CAPSTAN_LIMIT octets of room are always enough.
 * Numbers, in order: CAPSTAN_UNKNOWN_EDITION, CAPSTAN_TOO_LONG (the text), CAPSTAN_BAD_TABLE, CAPSTAN_NO_RELATION, CAPSTAN_TOO_LONG (the
 * written form), CAPSTAN_NO_OUTPUT_ROOM.
 */
capstan_length_answer capstan_write(size_t edition, const uint8_t *text, size_t text_len, const size_t *links, size_t link_slots,
                                    const size_t *params, size_t param_slots, size_t link_count, size_t param_count, uint8_t *out,
                                    size_t out_len);

/*
 * Walks through a catalogue, from the pack numbered `start`, so many steps: by the relation `next` if `steps` is positive, by `prev` if
 * it is negative; 0 stays. Answers how the walk ended, the number of the last pack, and how many steps were taken, which are all of them
 * just if it arrived. A walk may come to a pack again, as often as its steps allow.
 *
 * A catalogue is a text of at most CAPSTAN_CATALOGUE_LIMIT octets, a line for each pack, at most CAPSTAN_PACK_LIMIT of them; packs have
 * the numbers of their lines, from 0. A line is a URI, HTAB, a Link value, and LF, the last line's too. The URI is an absolute-URI by RFC
 * 3986, which has a scheme and no fragment, and ends at the line's first HTAB; none stands twice, octet by octet. The Link value is read
 * by itself in CAPSTAN_RFC8288 into all of `links` and `params`, as capstan_read does; whatever that refuses, also for want of room,
 * makes the catalogue bad. So room for the links and the parameters of each value by itself is enough. No octets are a catalogue of no
 * packs.
 *
 * A step takes the first link of the pack's value that has the relation and no `anchor`: one with an `anchor`, even an empty one, is
 * passed over. Its target is resolved on the pack's URI as capstan_resolve says, and leads to the pack that has exactly those octets for
 * its URI; no case and no triple is made alike, and a target with a fragment leads to none. CAPSTAN_NO_TARGET ends a walk where the
 * result is over CAPSTAN_LIMIT octets, or the pack's URI itself is.
 *
 * `links`, `params` and `work` may hold anything afterwards, also after a refusal; nothing beyond them is touched, and the catalogue
 * stays as it is. The answer goes by the catalogue and by how much is lent, not by what that held before. So where a walk of m steps
 * arrives, walking n more from there, both forwards or both backwards, ends as walking m + n does, if that is in range; the steps counted
 * are fewer by those of m.
 * Numbers, in order: CAPSTAN_OUT_OF_RANGE (before all else; INT32_MIN as any other), CAPSTAN_BAD_CATALOGUE, CAPSTAN_NO_SUCH_LINK (no pack
 * has the number `start`), CAPSTAN_NO_OUTPUT_ROOM (`work_len` is under CAPSTAN_LIMIT, also where no step is asked for).
 */
capstan_walk_answer capstan_walk(const uint8_t *catalogue, size_t catalogue_len, size_t start, int32_t steps, size_t *links,
                                 size_t link_slots, size_t *params, size_t param_slots, uint8_t *work, size_t work_len);

#ifdef __cplusplus
}
#endif

#endif
