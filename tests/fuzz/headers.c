/* A libFuzzer target: headers read, written, read back and joined, in each edition, held to the laws, also to those between the
   editions; unknown editions; codes of names, and texts compared. It needs no second reader, and doesn't say itself what a reference
   is. The library has no instrumentation; what guides the fuzzer are the answers: a malformed header's place that grows, counts that are
   new. README.md says how to run it. */
#include "capstan.h"
#include "lent.h"

enum { LIMIT = 8192, LINKS = LIMIT / 2, PARAMS = LIMIT / 2, COUNTERS = 4096, KINDS = 8 };

__attribute__((section("__libfuzzer_extra_counters"))) static uint8_t counters[2 * KINDS * COUNTERS];

/* The edition that headers are read in, and tables asked. */
static size_t edition;

static void seen(size_t kind, size_t what) {
  if (what < COUNTERS) counters[(edition * KINDS + kind) * COUNTERS + what] = 1;
}

typedef struct {
  const uint8_t *text;
  size_t length, *links, link_slots, *params, param_slots;
  capstan_read_answer answer;
} reading;

static uint8_t *text_end, *link_end, *param_end, *out_end, *name_end, *other_end;

/* Reads in so many slots and looks at everything lent. The text is lent anew, so there is one reading at a time. */
static reading read_in(const uint8_t *header, size_t length, size_t links, size_t params) {
  reading r = {.length = length, .link_slots = 4 * links, .param_slots = CAPSTAN_PARAM_SLOTS * params};
  r.text = memmove(text_end - length, header, length);
  r.links = held(link_end, r.link_slots * sizeof(size_t));
  r.params = held(param_end, r.param_slots * sizeof(size_t));
  r.answer = capstan_read(edition, r.text, length, r.links, r.link_slots, r.params, r.param_slots);
  MUST(r.answer.number <= 4);
  MUST(r.answer.number == 2 || r.answer.place == 0);
  MUST(r.answer.number == 0 || (r.answer.links == 0 && r.answer.params == 0));
  MUST(r.answer.links <= links && r.answer.params <= params);
  size_t link_used = 4 * r.answer.links, param_used = CAPSTAN_PARAM_SLOTS * r.answer.params;
  MUST(still_held(r.links + link_used, (r.link_slots - link_used) * sizeof(size_t)));
  MUST(still_held(r.params + param_used, (r.param_slots - param_used) * sizeof(size_t)));
  return r;
}

/* Reads in room for whatever so many octets may hold. */
static reading read_amply(const uint8_t *header, size_t length) {
  size_t most = length < LIMIT ? length : LIMIT;
  return read_in(header, length, (most + 1) / 3, most / 2);
}

/* The number of the table's check: nothing has the empty relation. */
static size_t judged(size_t in, reading r) {
  static const uint8_t none;
  capstan_search_answer s = capstan_search(in, r.text, r.length, r.links, r.link_slots, r.params, r.param_slots, r.answer.links,
                                           r.answer.params, &none, 0);
  MUST(s.link == 0);
  return s.number;
}

/* Whether the octets are refused for a target that is open in the first of them, and that their last octet closes. */
static int closes_unfit(const uint8_t *header, size_t open, size_t length) {
  capstan_read_answer a = read_amply(header, length).answer;
  if (a.number != 2 || a.place == 0 || a.place > open || open == length || header[a.place - 1] != '<') return 0;
  return memchr(header + a.place, '>', length - a.place) == header + length - 1;
}

/* Whether some header begins with these octets, where a target needn't be a reference: nothing is wrong before their end, and what is
   open there is closed by one of a few ends, if only to a target that is none. */
static int begins_a_header(const uint8_t *header, size_t length) {
  static const char *const ends[] = {"", ">", "0>", "00>", "x", "\"", "x\""};
  static uint8_t whole[LIMIT];
  capstan_read_answer open = read_amply(header, length).answer;
  if (open.number == 2 && open.place != length) return 0;
  if (length + 3 > LIMIT) return 1;
  memcpy(whole, header, length);
  for (size_t i = 0; i < sizeof ends / sizeof *ends; i++) {
    size_t more = strlen(ends[i]);
    memcpy(whole + length, ends[i], more);
    if (read_amply(whole, length + more).answer.number == 0 || closes_unfit(whole, length, length + more)) return 1;
  }
  return 0;
}

/* The place is where a target starts that is closed and no reference. As long as it is open, the octets are only cut short. Alone in a
   header it is refused too, and a table with it is bad, where one with an empty target is good. */
static void unfit_law(const uint8_t *header, size_t length, size_t place) {
  const uint8_t *close = memchr(header + place, '>', length - place);
  MUST(place > 0 && header[place - 1] == '<' && close != NULL);
  size_t end = close - header;
  capstan_read_answer closed = read_amply(header, end + 1).answer, alone = read_amply(header + place - 1, end - place + 2).answer;
  MUST(closed.number == 2 && closed.place == place && alone.number == 2 && alone.place == 1);
  reading r = read_amply(header, end);
  MUST(r.answer.number == 2 && r.answer.place == end);
  r.answer.links = 1;
  r.links[0] = place, r.links[1] = end, r.links[2] = r.links[3] = 0;
  MUST(judged(CAPSTAN_RFC8288, r) == CAPSTAN_BAD_TABLE && judged(CAPSTAN_RFC5988, r) == CAPSTAN_BAD_TABLE);
  r.links[0] = end;
  MUST(judged(CAPSTAN_RFC8288, r) == CAPSTAN_NOT_FOUND && judged(CAPSTAN_RFC5988, r) == CAPSTAN_NOT_FOUND);
  seen(7, place);
}

/* Whether a malformed header has its place at such a target: anywhere else one octet more is already wrong. */
static int is_unfit_at(const uint8_t *header, size_t length, size_t place) {
  return place < length && read_amply(header, place + 1).answer.place != place;
}

/* The octets up to the place begin a header. With one more they don't, or a target starts there that is no reference. */
static void place_law(const uint8_t *header, size_t length, size_t place) {
  MUST(place <= length);
  MUST(begins_a_header(header, place));
  if (place < length) MUST(read_amply(header, place + 1).answer.number == 2);
  if (is_unfit_at(header, length, place)) unfit_law(header, length, place);
}

static void room_law(const uint8_t *header, size_t length, capstan_read_answer a) {
  MUST(read_in(header, length, a.links, a.params).answer.number == 0);
  if (a.links > 0) MUST(read_in(header, length, a.links - 1, a.params).answer.number == 3);
  if (a.params > 0) MUST(read_in(header, length, a.links, a.params - 1).answer.number == 4);
}

/* The header joined with itself has everything twice. */
static void join_law(const uint8_t *header, size_t length, capstan_read_answer a) {
  static uint8_t join[LIMIT];
  if (2 * length + 1 > LIMIT) return;
  memcpy(join, header, length);
  join[length] = ',';
  memcpy(join + length + 1, header, length);
  capstan_read_answer twice = read_in(join, 2 * length + 1, 2 * a.links, 2 * a.params).answer;
  MUST(twice.number == 0 && twice.links == 2 * a.links && twice.params == 2 * a.params);
}

static capstan_length_answer write_in(reading r, size_t room) {
  uint8_t *out = held(out_end, room);
  capstan_length_answer w = capstan_write(edition, r.text, r.length, r.links, r.link_slots, r.params, r.param_slots, r.answer.links,
                                          r.answer.params, out, room);
  MUST(w.number == 0 || w.length == 0);
  MUST(w.length <= room && still_held(out + w.length, room - w.length));
  return w;
}

/* What is written reads back to the counts in each edition, and is written again as it is. */
static void write_law(reading r) {
  static uint8_t form[LIMIT];
  capstan_read_answer a = r.answer;
  capstan_length_answer w = write_in(r, LIMIT);
  MUST(w.number == 0 || w.number == 1 || w.number == 6);
  seen(3, w.number == 0 ? 10 + w.length : w.number);
  if (w.number != 0) return;
  memcpy(form, out_end - LIMIT, w.length);
  MUST(write_in(r, w.length).number == 0);
  if (w.length > 0) MUST(write_in(r, w.length - 1).number == 7);
  size_t asked = edition;
  for (edition = CAPSTAN_RFC8288; edition <= CAPSTAN_RFC5988; edition++) {
    reading back = read_in(form, w.length, a.links, a.params);
    MUST(back.answer.number == 0 && back.answer.links == a.links && back.answer.params == a.params);
    MUST(write_in(back, LIMIT).length == w.length && memcmp(form, out_end - LIMIT, w.length) == 0);
  }
  edition = asked;
}

static void value_law(reading r) {
  for (size_t link = 0; link < r.answer.links; link++) {
    for (size_t place = 0; place < r.links[4 * link + 3]; place++) {
      size_t *param = r.params + CAPSTAN_PARAM_SLOTS * (r.links[4 * link + 2] + place), room = param[3] - param[2];
      uint8_t *out = held(out_end, room);
      capstan_length_answer v = capstan_value(edition, r.text, r.length, r.links, r.link_slots, r.params, r.param_slots,
                                              r.answer.links, r.answer.params, link, place, out, room);
      MUST(v.number == 0 && v.length <= room && still_held(out + v.length, room - v.length));
      if (param[4] != 2) MUST(v.length == room && memcmp(out, r.text + param[2], room) == 0);
    }
  }
}

static uint8_t lower(uint8_t octet) { return octet >= 'A' && octet <= 'Z' ? octet + 32 : octet; }

/* The comparison as a plain loop says it. */
static capstan_compare_answer plainly(const uint8_t *one, size_t one_length, const uint8_t *other, size_t other_length) {
  capstan_compare_answer answer = {one_length == other_length, 0};
  while (answer.same && answer.pairs < one_length) {
    answer.same = lower(one[answer.pairs]) == lower(other[answer.pairs]);
    answer.pairs++;
  }
  return answer;
}

/* Both texts are lent anew, so that nothing of the input stands behind them. */
static capstan_compare_answer compared(const uint8_t *one, size_t one_length, const uint8_t *other, size_t other_length) {
  uint8_t *first = memcpy(name_end - one_length, one, one_length);
  uint8_t *second = memcpy(other_end - other_length, other, other_length);
  capstan_compare_answer due = plainly(one, one_length, other, other_length);
  capstan_compare_answer answer = capstan_compare(first, one_length, second, other_length);
  capstan_compare_answer turned = capstan_compare(second, other_length, first, one_length);
  MUST(answer.same == due.same && answer.pairs == due.pairs);
  MUST(turned.same == due.same && turned.pairs == due.pairs);
  MUST(memcmp(first, one, one_length) == 0 && memcmp(second, other, other_length) == 0);
  return answer;
}

/* The halves of the input; its parts before and behind the place that its first two octets say; and all of it beside a copy in the
   other case, which is then changed in that place, as the last octet says. */
static void compare_law(const uint8_t *text, size_t length) {
  static uint8_t copy[2 * LIMIT];
  size_t half = length / 2, place = length < 2 ? 0 : (256 * text[0] + text[1]) % length;
  seen(5, compared(text, half, text + half, half).pairs);
  compared(text, place, text + place, length - place);
  for (size_t i = 0; i < length; i++) copy[i] = lower(text[i]) >= 'a' && lower(text[i]) <= 'z' ? text[i] ^ 32 : text[i];
  MUST(compared(text, length, copy, length).same);
  if (length == 0) return;
  copy[place] ^= text[length - 1];
  compared(text, length, copy, length);
}

/* The known names in the order of their codes; those that a link keeps once come first. */
static const char *const names[] = {"rel", "anchor", "media", "title", "title*", "type", "hreflang", "rev"};
enum { NAMES = sizeof names / sizeof *names, LAST_ONCE = 6 };

/* The code as the list of names says it. */
static size_t listed_code(const uint8_t *name, size_t length) {
  for (size_t i = 0; i < NAMES; i++)
    if (plainly(name, length, (const uint8_t *)names[i], strlen(names[i])).same) return i + 1;
  return 0;
}

/* The name is lent anew, so that nothing of the text stands behind it. */
static size_t code_of(const uint8_t *name, size_t length) {
  uint8_t *lent = memcpy(name_end - length, name, length);
  size_t code = capstan_name_code(lent, length);
  MUST(code == listed_code(name, length));
  MUST(memcmp(lent, name, length) == 0);
  return code;
}

/* With this bit flipped letters are in the other case, and other octets are others. */
static void flipped_law(const uint8_t *name, size_t length) {
  static uint8_t flipped[LIMIT];
  for (size_t i = 0; i < length; i++) flipped[i] = name[i] ^ 32;
  code_of(flipped, length);
}

/* A record has the code of its name. Of each code that is kept once a link has one parameter at most. Whether each `hreflang` and `rev`
   was kept can't be seen here; the differential test compares that. */
static void code_law(reading r) {
  for (size_t link = 0; link < r.answer.links; link++) {
    size_t had[NAMES + 1] = {0}, *param = r.params + CAPSTAN_PARAM_SLOTS * r.links[4 * link + 2];
    for (size_t place = 0; place < r.links[4 * link + 3]; place++, param += CAPSTAN_PARAM_SLOTS) {
      size_t code = code_of(r.text + param[0], param[1] - param[0]);
      MUST(param[5] == code);
      MUST(++had[code] == 1 || code == 0 || code > LAST_ONCE);
      if (code > 0) seen(4, 16 * code + (had[code] < 16 ? had[code] : 15));
      flipped_law(r.text + param[0], param[1] - param[0]);
    }
  }
}

/* With another code in one of its records the table is bad. */
static void spoilt_code_law(reading r) {
  for (size_t i = 0; i < r.answer.params; i++) {
    size_t *code = r.params + CAPSTAN_PARAM_SLOTS * i + 5, right = *code;
    *code = i % 8 == 7 ? SIZE_MAX - i : (right + 1 + (r.length + i) % (NAMES + 1)) % (NAMES + 2);
    MUST(judged(CAPSTAN_RFC8288, r) == CAPSTAN_BAD_TABLE && judged(CAPSTAN_RFC5988, r) == CAPSTAN_BAD_TABLE);
    *code = right;
  }
}

/* No reference begins with a colon, though it is an octet of targets: with one for its first octet a target makes the table bad. */
static void spoilt_target_law(reading r) {
  for (size_t link = 0; link < r.answer.links && link < 64; link++) {
    uint8_t *octet = text_end - r.length + r.links[4 * link], right = *octet;
    if (r.links[4 * link] == r.links[4 * link + 1]) continue;
    *octet = ':';
    MUST(judged(CAPSTAN_RFC8288, r) == CAPSTAN_BAD_TABLE && judged(CAPSTAN_RFC5988, r) == CAPSTAN_BAD_TABLE);
    *octet = right;
  }
}

/* How many octets of a value are outside a token. */
static size_t outside(const uint8_t *octet, const uint8_t *end) {
  size_t count = 0;
  for (; octet < end; octet++)
    if (strchr("()/:<=>?@[]{}", *octet) != NULL) count++;
  return count;
}

/* A bare value has form 3 just if an octet of it is outside a token, and the older edition alone allows that. With 3 and 1 exchanged the
   table is bad; without any 3 it is good in each edition. */
static void form_law(reading r) {
  size_t wider = 0;
  for (size_t i = 0; i < r.answer.params; i++) {
    size_t *param = r.params + CAPSTAN_PARAM_SLOTS * i, form = param[4];
    MUST(form <= 3);
    if (form == CAPSTAN_TOKEN || form == CAPSTAN_WIDER) {
      size_t count = outside(r.text + param[2], r.text + param[3]);
      MUST((count > 0) == (form == CAPSTAN_WIDER));
      seen(6, form == CAPSTAN_WIDER ? 64 + count : 0);
      param[4] = CAPSTAN_TOKEN + CAPSTAN_WIDER - form;
      MUST(judged(CAPSTAN_RFC8288, r) == CAPSTAN_BAD_TABLE && judged(CAPSTAN_RFC5988, r) == CAPSTAN_BAD_TABLE);
      param[4] = form;
      if (form == CAPSTAN_WIDER) wider++;
    }
    if (r.answer.params > 64) break;
  }
  MUST(judged(edition, r) == CAPSTAN_NOT_FOUND && judged(CAPSTAN_RFC5988, r) == CAPSTAN_NOT_FOUND);
  if (wider > 0) MUST(edition == CAPSTAN_RFC5988 && judged(CAPSTAN_RFC8288, r) == CAPSTAN_BAD_TABLE);
}

/* The older edition answers as RFC 8288's does, unless the header is malformed there; then it goes as far, or farther. It goes no farther
   than a target that is no reference, since up to there both read alike. */
static void edition_law(const uint8_t *header, size_t length) {
  static size_t links[4 * LINKS], params[CAPSTAN_PARAM_SLOTS * PARAMS];
  edition = CAPSTAN_RFC8288;
  reading newer = read_amply(header, length);
  capstan_read_answer n = newer.answer;
  memcpy(links, newer.links, 4 * n.links * sizeof(size_t));
  memcpy(params, newer.params, CAPSTAN_PARAM_SLOTS * n.params * sizeof(size_t));
  int unfit = n.number == 2 && is_unfit_at(header, length, n.place);
  edition = CAPSTAN_RFC5988;
  reading older = read_amply(header, length);
  capstan_read_answer o = older.answer;
  if (n.number == 2) {
    MUST((o.number == 0 && !unfit) || (o.number == 2 && o.place >= n.place));
    MUST(!unfit || o.place == n.place);
    return;
  }
  MUST(o.number == n.number && o.place == n.place && o.links == n.links && o.params == n.params);
  MUST(memcmp(links, older.links, 4 * n.links * sizeof(size_t)) == 0);
  MUST(memcmp(params, older.params, CAPSTAN_PARAM_SLOTS * n.params * sizeof(size_t)) == 0);
}

/* In no other edition is anything answered but 10, whatever the header and the tables. */
static void unknown_law(const uint8_t *header, size_t length) {
  static const size_t editions[] = {2, 3, 256, (size_t)1 << 32, ((size_t)1 << 32) + 1, SIZE_MAX};
  size_t said = length == 0 ? 0 : header[length - 1], in = said < 128 ? editions[said % 6] : said << (said % 56);
  edition = CAPSTAN_RFC5988;
  reading r = read_amply(header, length);
  size_t *links = held(link_end, r.link_slots * sizeof(size_t)), *params = held(param_end, r.param_slots * sizeof(size_t));
  capstan_read_answer a = capstan_read(in, r.text, length, links, r.link_slots, params, r.param_slots);
  MUST(a.number == 10 && a.place == 0 && a.links == 0 && a.params == 0);
  MUST(still_held(links, r.link_slots * sizeof(size_t)) && still_held(params, r.param_slots * sizeof(size_t)));
  r = read_amply(header, length);
  MUST(judged(in, r) == 10);
  capstan_context_answer c = capstan_context(in, r.text, length, header, length, r.links, r.link_slots, r.params, r.param_slots,
                                             r.answer.links, r.answer.params, 0);
  MUST(c.number == 10 && c.source == 0 && c.start == 0 && c.end == 0);
  size_t room = said % 9;
  uint8_t *out = held(out_end, room);
  capstan_length_answer v = capstan_value(in, r.text, length, r.links, r.link_slots, r.params, r.param_slots, r.answer.links,
                                          r.answer.params, 0, 0, out, room);
  capstan_length_answer w = capstan_write(in, r.text, length, r.links, r.link_slots, r.params, r.param_slots, r.answer.links,
                                          r.answer.params, out, room);
  MUST(v.number == 10 && v.length == 0 && w.number == 10 && w.length == 0 && still_held(out, room));
}

int LLVMFuzzerInitialize(int *argc, char ***argv) {
  (void)argc, (void)argv;
  text_end = lent_end(2 * LIMIT);
  link_end = lent_end(4 * LINKS * sizeof(size_t));
  param_end = lent_end(CAPSTAN_PARAM_SLOTS * PARAMS * sizeof(size_t));
  out_end = lent_end(LIMIT);
  name_end = lent_end(2 * LIMIT);
  other_end = lent_end(2 * LIMIT);
  return 0;
}

/* All that is held of the header in the present edition. */
static void header_laws(const uint8_t *header, size_t length) {
  capstan_read_answer a = read_amply(header, length).answer;
  MUST((a.number == 1) == (length > LIMIT));
  if (a.number == 2) {
    seen(0, a.place);
    place_law(header, length, a.place);
  } else if (a.number == 0) {
    seen(1, a.links);
    seen(2, a.params);
    room_law(header, length, a);
    join_law(header, length, a);
    reading r = read_amply(header, length);
    if (a.params <= 64) {
      value_law(r);
      spoilt_code_law(r);
      spoilt_target_law(r);
    }
    code_law(r);
    form_law(r);
    write_law(r);
  }
}

int LLVMFuzzerTestOneInput(const uint8_t *header, size_t length) {
  if (length > 2 * LIMIT) return -1;
  edition = CAPSTAN_RFC8288;
  seen(4, code_of(header, length));
  compare_law(header, length);
  header_laws(header, length);
  edition = CAPSTAN_RFC5988;
  header_laws(header, length);
  edition_law(header, length);
  unknown_law(header, length);
  return 0;
}
