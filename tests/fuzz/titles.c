/* A libFuzzer target: one extended value, held to a judge that takes it from its end to its beginning and looks characters up in the
   ranges of RFC 3629. The library must decode it so, in every room, and say the same of links whose `title*` means the value, beside a
   `title` and without one. The first octet of the input says how the value is written in a header; the others are the value, what stands
   behind the quotes of one, and octets that stand in triples there. README.md says how to run it. */
#include "capstan.h"
#include "lent.h"

enum { LIMIT = CAPSTAN_LIMIT, MOST = 4 * LIMIT, LINKS = 2, PARAMS = 4, EDITIONS = 2 };

/* Some octets that stand one behind another. */
typedef struct {
  const uint8_t *at;
  size_t length;
} text;

static text of(const char *octets) { return (text){(const uint8_t *)octets, strlen(octets)}; }

static int is_one_of(uint8_t octet, const char *marks) { return octet != 0 && strchr(marks, octet) != NULL; }

static int is_digit(uint8_t octet) { return octet >= '0' && octet <= '9'; }

static int is_alpha(uint8_t octet) { return (octet >= 'A' && octet <= 'Z') || (octet >= 'a' && octet <= 'z'); }

static int is_hex(uint8_t octet) { return is_digit(octet) || is_one_of(octet, "ABCDEFabcdef"); }

static int is_token(uint8_t octet) { return is_digit(octet) || is_alpha(octet) || is_one_of(octet, "!#$%&'*+-.^_`|~"); }

/* What may stand for itself between the quotes of a quoted string, or behind a backslash there. */
static int is_escapable(uint8_t octet) { return octet == '\t' || (octet >= ' ' && octet != 127); }

static uint8_t value_of(uint8_t digit) { return is_digit(digit) ? digit - '0' : (digit | 32) - 'a' + 10; }

/* The last of these octets, counted from 1, or 0 if there is none. */
static size_t last(text t, uint8_t octet) {
  while (t.length > 0 && t.at[t.length - 1] != octet) t.length--;
  return t.length;
}

/* What characters begin with, and what their second octet is; the others are 80 to BF. */
static const struct {
  uint8_t first, to, second, second_to;
  size_t length;
} ranges[] = {{0x00, 0x7F, 0, 0, 1},       {0xC2, 0xDF, 0x80, 0xBF, 2}, {0xE0, 0xE0, 0xA0, 0xBF, 3},
              {0xE1, 0xEC, 0x80, 0xBF, 3}, {0xED, 0xED, 0x80, 0x9F, 3}, {0xEE, 0xEF, 0x80, 0xBF, 3},
              {0xF0, 0xF0, 0x90, 0xBF, 4}, {0xF1, 0xF3, 0x80, 0xBF, 4}, {0xF4, 0xF4, 0x80, 0x8F, 4}};
enum { RANGES = sizeof ranges / sizeof *ranges };

/* Whether the octets are one character of that range. */
static int is_in(text t, size_t range) {
  if (t.length != ranges[range].length || t.at[0] < ranges[range].first || t.at[0] > ranges[range].to) return 0;
  for (size_t i = 1; i < t.length; i++) {
    uint8_t least = i == 1 ? ranges[range].second : 0x80, most = i == 1 ? ranges[range].second_to : 0xBF;
    if (t.at[i] < least || t.at[i] > most) return 0;
  }
  return 1;
}

/* How many octets the last character has, or 0 if they end with none. No character ends another, so it is one at most. */
static size_t last_character(text t) {
  for (size_t length = 1; length <= 4 && length <= t.length; length++)
    for (size_t range = 0; range < RANGES; range++)
      if (is_in((text){t.at + t.length - length, length}, range)) return length;
  return 0;
}

static int is_utf8(text t) {
  while (t.length > 0) {
    size_t length = last_character(t);
    if (length == 0) return 0;
    t.length -= length;
  }
  return 1;
}

/* What a value gives, or that it is wrong. */
typedef struct {
  int right;
  text octets;
} given;

static int is_charset(text t) {
  static const char name[] = "utf-8";
  for (size_t i = 0; i < t.length; i++)
    if (i >= 5 || (is_alpha(t.at[i]) ? t.at[i] | 32 : t.at[i]) != name[i]) return 0;
  return t.length == 5;
}

static int is_language(text t) {
  for (size_t i = 0; i < t.length; i++)
    if (!is_alpha(t.at[i]) && !is_digit(t.at[i]) && t.at[i] != '-') return 0;
  return 1;
}

/* From the last octet to the first: two digits behind a `%` are a triple, and no attribute character is a `%`. */
static given decoded(text t) {
  static uint8_t octets[MOST];
  size_t start = MOST;
  while (t.length > 0) {
    const uint8_t *end = t.at + t.length;
    int triple = t.length >= 3 && end[-3] == '%' && is_hex(end[-2]) && is_hex(end[-1]);
    if (!triple && (!is_token(end[-1]) || is_one_of(end[-1], "*'%"))) return (given){0, {octets, 0}};
    octets[--start] = triple ? 16 * value_of(end[-2]) + value_of(end[-1]) : end[-1];
    t.length -= triple ? 3 : 1;
  }
  text all = {octets + start, MOST - start};
  return (given){is_utf8(all), all};
}

static given judged(text t) {
  size_t second = last(t, '\''), first = second > 0 ? last((text){t.at, second - 1}, '\'') : 0;
  text charset = {t.at, first > 0 ? first - 1 : 0}, language = {t.at + first, first > 0 ? second - 1 - first : 0};
  if (first == 0 || !is_charset(charset) || !is_language(language)) return (given){0, {t.at, 0}};
  return decoded((text){t.at + second, t.length - second});
}

/* How far the octets are decoded and of which ranges the characters are guides the fuzzer. */
__attribute__((section("__libfuzzer_extra_counters"))) static uint8_t counters[RANGES * RANGES + 64];

static void seen(given g) {
  size_t former = 0;
  counters[RANGES * RANGES + (g.octets.length < 63 ? g.octets.length : 63)] = 1;
  for (text t = g.octets; g.right && t.length > 0; t.length -= last_character(t))
    for (size_t range = 0, length = last_character(t); range < RANGES; range++)
      if (is_in((text){t.at + t.length - length, length}, range)) counters[former * RANGES + range] = 1, former = range;
}

static uint8_t *text_end, *out_end, *link_end, *param_end;

static uint8_t *lent(text t) { return memcpy(text_end - t.length, t.at, t.length); }

/* The number that is due in that room, and the octets, if there are any. */
static void out_law(capstan_length_answer a, size_t refused, text due, const uint8_t *out, size_t room) {
  size_t number = refused != CAPSTAN_DONE ? refused : due.length > room ? CAPSTAN_NO_OUTPUT_ROOM : CAPSTAN_DONE;
  size_t length = number == CAPSTAN_DONE ? due.length : 0;
  MUST(a.number == number && a.length == length && memcmp(out, due.at, length) == 0 && still_held(out + length, room - length));
}

static void decode_law(text value) {
  given g = value.length > LIMIT ? (given){0, {value.at, 0}} : judged(value);
  size_t refused = value.length > LIMIT ? CAPSTAN_TOO_LONG : g.right ? CAPSTAN_DONE : CAPSTAN_BAD_EXTENDED;
  size_t rooms[] = {g.octets.length, g.octets.length + 1, g.octets.length > 0 ? g.octets.length - 1 : 0, 0, value.length};
  seen(g);
  for (size_t i = 0; i < sizeof rooms / sizeof *rooms; i++) {
    uint8_t *out = held(out_end, rooms[i]);
    out_law(capstan_decode(lent(value), value.length, out, rooms[i]), refused, g.octets, out, rooms[i]);
  }
  MUST(memcmp(text_end - value.length, value.at, value.length) == 0);
}

static size_t put(uint8_t *octets, size_t end, text more) {
  memcpy(octets + end, more.at, more.length);
  return end + more.length;
}

/* The value bare if it may be and that is said, else in quotes, with a backslash where one must stand and where that is said. */
static size_t put_value(uint8_t *octets, size_t end, text value, uint8_t how) {
  int bare = how % 2 && value.length > 0;
  for (size_t i = 0; i < value.length; i++) bare = bare && is_token(value.at[i]);
  if (bare) return put(octets, end, value);
  octets[end++] = '"';
  for (size_t i = 0; i < value.length; i++) {
    if (is_one_of(value.at[i], "\"\\") || (how / 2 + i) % 4 == 0) octets[end++] = '\\';
    octets[end++] = value.at[i];
  }
  octets[end++] = '"';
  return end;
}

/* A header that is read and asked: its octets, and what the title of its last link is, if it has one. */
typedef struct {
  text header, title;
  size_t links, refused;
} titled;

/* What a link in that room answers; the link behind the last one isn't there, and no edition comes before all. */
static void ask_law(size_t edition, titled t, size_t room) {
  size_t *links = held(link_end, CAPSTAN_LINK_SLOTS * LINKS * sizeof(size_t));
  size_t *params = held(param_end, CAPSTAN_PARAM_SLOTS * PARAMS * sizeof(size_t));
  const uint8_t *octets = lent(t.header);
  capstan_read_answer r = capstan_read(edition, octets, t.header.length, links, CAPSTAN_LINK_SLOTS * LINKS, params,
                                       CAPSTAN_PARAM_SLOTS * PARAMS);
  MUST(r.number == CAPSTAN_DONE && r.links == t.links);
  for (size_t i = 0; i < 3; i++) {
    uint8_t *out = held(out_end, room);
    size_t numbers[] = {t.refused, CAPSTAN_NO_SUCH_LINK, CAPSTAN_UNKNOWN_EDITION}, asked[] = {edition, edition, edition + 2};
    out_law(capstan_title(asked[i], octets, t.header.length, links, CAPSTAN_LINK_SLOTS * LINKS, params, CAPSTAN_PARAM_SLOTS * PARAMS,
                          r.links, r.params, t.links - 1 + i % 2, out, room),
            numbers[i], t.title, out, room);
  }
  MUST(memcmp(octets, t.header.at, t.header.length) == 0);
}

/* A link with the value for its `title*` and another parameter, behind a link that has a title or by itself. */
static void title_law(text value, const char *beside, text plain, uint8_t how) {
  static uint8_t octets[MOST];
  given g = judged(value);
  titled t = {.links = how / 8 % 2 + 1};
  size_t end = put(octets, 0, of(t.links == 2 ? "<a>;title*=UTF-8''b;title=c, <d>" : "<d>"));
  end = put(octets, end, of(how / 16 % 2 ? beside : ""));
  end = put_value(octets, put(octets, end, of(";TITLE*=")), value, how);
  end = put(octets, end, of(how / 16 % 2 ? "" : beside));
  if (end > LIMIT) return;
  t.header = (text){octets, end};
  t.title = g.right ? g.octets : plain;
  t.refused = g.right || *beside ? CAPSTAN_DONE : CAPSTAN_NOT_FOUND;
  for (size_t edition = 0; edition < EDITIONS; edition++) {
    ask_law(edition, t, t.title.length);
    ask_law(edition, t, t.title.length + 3);
    if (t.title.length > 0) ask_law(edition, t, t.title.length - 1);
  }
}

static void value_laws(text value, uint8_t how) {
  decode_law(value);
  for (size_t i = 0; i < value.length; i++)
    if (!is_escapable(value.at[i])) return;
  title_law(value, "", of(""), how);
  title_law(value, ";title=\"\\p\\\"\"", of("p\""), how);
  title_law(value, ";title", of(""), how);
}

int LLVMFuzzerInitialize(int *argc, char ***argv) {
  (void)argc, (void)argv;
  text_end = lent_end(MOST);
  out_end = lent_end(MOST);
  link_end = lent_end(CAPSTAN_LINK_SLOTS * LINKS * sizeof(size_t));
  param_end = lent_end(CAPSTAN_PARAM_SLOTS * PARAMS * sizeof(size_t));
  return 0;
}

int LLVMFuzzerTestOneInput(const uint8_t *input, size_t size) {
  static uint8_t behind[MOST], triples[MOST];
  if (size == 0 || size > LIMIT + 64) return -1;
  text value = {input + 1, size - 1};
  size_t start = put(behind, 0, of("UTF-8''")), end = put(triples, 0, of("utf-8'a-1'"));
  value_laws(value, input[0]);
  value_laws((text){behind, put(behind, start, value)}, input[0]);
  for (size_t i = 0; i < value.length && end + 3 <= LIMIT; i++) {
    static const char digits[] = "0123456789abcdef0123456789ABCDEF";
    size_t capital = (input[0] + i) % 2 * 16;
    triples[end++] = '%', triples[end++] = digits[capital + value.at[i] / 16], triples[end++] = digits[capital + value.at[i] % 16];
  }
  value_laws((text){triples, end}, input[0]);
  return 0;
}
