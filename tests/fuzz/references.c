/* A libFuzzer target: the octets of one target, held to a judge that splits a reference into its components and judges each by itself.
   The library must say the same of a header that ends in the target, read and fed in parts, and of tables; as an anchor it is not judged.
   The input up to its first `>` is the target, and then a part of others; the octets behind that say what stands before the target and
   how the header is cut. README.md says how to run it. */
#include "capstan.h"
#include "lent.h"
#include "reference.h"

enum { LIMIT = CAPSTAN_LIMIT, MOST = 2 * LIMIT + 64, LINKS = 3, PARAMS = 2, STATES = 640, KINDS = 32 };

__attribute__((section("__libfuzzer_extra_counters"))) static uint8_t counters[STATES * KINDS];

/* Octets that hardly any rule tells apart are of one kind. */
static size_t kind_of(uint8_t octet) {
  static const char marks[] = "0125%:/?#[]@.v";
  const char *mark = strchr(marks, octet);
  if (mark != NULL) return mark - marks;
  return is_digit(octet) ? 27 + (octet > '5') : is_hex(octet) ? 29 : is_alpha(octet) ? 30 : is_plain(octet) ? 31 : 26;
}

/* How far the library has judged the target, and the octet that comes then. */
static void seen(size_t judged, uint8_t octet) {
  if (judged < STATES) counters[judged * KINDS + kind_of(octet)] = 1;
}

static uint8_t *text_end, *buffer_end, *link_end, *param_end;

/* A header whose last octets are the target and its `>`, and what is right and wrong with it. */
typedef struct {
  const uint8_t *octets;
  size_t length, start, links;
  size_t wrong; /* the first octet that can't stand in a target there, or the length if each can */
  int fit;
} header;

/* Such an octet. Where hex digits are due it may be the `>`. */
static size_t wrong_octet(const uint8_t *octets, size_t start, size_t length) {
  size_t digits = 0;
  for (size_t i = start; i < length; i++) {
    int may = is_plain(octets[i]) || is_one_of(octets[i], "%:/?#[]@") || i + 1 == length;
    if (digits > 0 ? !is_hex(octets[i]) : !may) return i;
    digits = digits > 0 ? digits - 1 : octets[i] == '%' ? 2 : 0;
  }
  return length;
}

static size_t put(uint8_t *octets, size_t end, const char *more) {
  memcpy(octets + end, more, strlen(more));
  return end + strlen(more);
}

/* What stands around the octets of the input up to the `>`. Few inputs are IP literals by themselves, so they are made ones. */
static const char *const frames[][2] = {{"", ">"}, {"//[", "]>"}, {"//[::", "]>"}};
enum { FRAMES = sizeof frames / sizeof *frames };

/* Before the target stands nothing, or a link with a parameter, and then, if that is said, blanks up to about the limit. */
static header made(text t, const char *const frame[2], size_t said) {
  static uint8_t octets[MOST];
  header h = {.octets = octets, .links = said % 2 + 1};
  size_t end = put(octets, 0, said % 2 ? "<a>;x=\"<1:\" , " : "");
  size_t rest = 1 + strlen(frame[0]) + t.length + strlen(frame[1]), to = LIMIT - 4 + said / 2 % 8;
  if (said >= 240 && end + rest < to) {
    memset(octets + end, ' ', to - rest - end);
    end = to - rest;
  }
  h.start = put(octets, end, "<");
  end = put(octets, h.start, frame[0]);
  memcpy(octets + end, t.at, t.length);
  h.length = put(octets, end + t.length, frame[1]);
  h.wrong = wrong_octet(octets, h.start, h.length);
  h.fit = is_reference((text){octets + h.start, h.length - 1 - h.start});
  return h;
}

typedef struct {
  size_t number, place;
} verdict;

/* What a feed should answer once so many octets are fed; reading all of them, too. */
static verdict due(header h, size_t fed) {
  if (fed > LIMIT) return (verdict){CAPSTAN_TOO_LONG, 0};
  if (h.wrong < fed) return (verdict){CAPSTAN_MALFORMED, h.wrong};
  if (fed == h.length && !h.fit) return (verdict){CAPSTAN_MALFORMED, h.start};
  return (verdict){CAPSTAN_DONE, 0};
}

/* The link before the target's has the only parameter. */
static void answer_law(header h, capstan_read_answer a, const size_t *links, const size_t *params) {
  verdict v = due(h, h.length);
  size_t count = v.number == 0 ? h.links : 0, before_it = v.number == 0 ? h.links - 1 : 0;
  MUST(a.number == v.number && a.place == v.place && a.links == count && a.params == before_it);
  if (v.number == 0) {
    const size_t *link = links + CAPSTAN_LINK_SLOTS * before_it;
    MUST(link[0] == h.start && link[1] == h.length - 1 && link[2] == before_it && link[3] == 0);
  }
  MUST(still_held(links + CAPSTAN_LINK_SLOTS * count, CAPSTAN_LINK_SLOTS * (LINKS - count) * sizeof(size_t)));
  MUST(still_held(params + CAPSTAN_PARAM_SLOTS * before_it, CAPSTAN_PARAM_SLOTS * (PARAMS - before_it) * sizeof(size_t)));
}

static size_t *held_links(void) { return held(link_end, CAPSTAN_LINK_SLOTS * LINKS * sizeof(size_t)); }

static size_t *held_params(void) { return held(param_end, CAPSTAN_PARAM_SLOTS * PARAMS * sizeof(size_t)); }

static uint8_t *lent(text t) { return memcpy(text_end - t.length, t.at, t.length); }

/* Reads the octets in that room. */
static capstan_read_answer read_in(size_t edition, text t, size_t *links, size_t *params) {
  return capstan_read(edition, lent(t), t.length, links, CAPSTAN_LINK_SLOTS * LINKS, params, CAPSTAN_PARAM_SLOTS * PARAMS);
}

static void read_law(size_t edition, header h) {
  size_t *links = held_links(), *params = held_params();
  answer_law(h, read_in(edition, (text){h.octets, h.length}, links, params), links, params);
}

/* A feeding, and how many octets were fed. */
typedef struct {
  capstan_feeding state;
  size_t fed;
} feeding;

static feeding started(size_t edition) {
  held(buffer_end, LIMIT);
  return (feeding){capstan_start(edition), 0};
}

static void feed(feeding *f, header h, size_t length) {
  text part = {h.octets + f->fed, length};
  capstan_feed_answer a = capstan_feed(f->state, lent(part), length, buffer_end - LIMIT, LIMIT);
  f->fed += length;
  f->state = a.next;
  verdict v = due(h, f->fed);
  MUST(a.number == v.number && a.place == v.place);
  if (a.number == 0) MUST(memcmp(buffer_end - LIMIT + f->fed - length, part.at, length) == 0);
}

static void finish_law(feeding f, header h) {
  size_t *links = held_links(), *params = held_params();
  capstan_read_answer a = capstan_finish(f.state, buffer_end - LIMIT, LIMIT, links, CAPSTAN_LINK_SLOTS * LINKS, params,
                                         CAPSTAN_PARAM_SLOTS * PARAMS);
  answer_law(h, a, links, params);
}

/* Each octet of the target is one part. Behind a wrong one nothing is judged any more. */
static void octets_law(size_t edition, header h) {
  feeding f = started(edition);
  feed(&f, h, h.start);
  while (f.fed < h.length) {
    if (f.fed <= h.wrong) seen(f.state.judged, h.octets[f.fed]);
    feed(&f, h, 1);
  }
  finish_law(f, h);
}

/* Each octet that says how is the length of one part, and what is left is the last. */
static void parts_law(size_t edition, header h, text how) {
  feeding f = started(edition);
  for (; how.length > 0; how = behind(how, 1)) {
    size_t left = h.length - f.fed;
    feed(&f, h, how.at[0] < left ? how.at[0] : left);
  }
  feed(&f, h, h.length - f.fed);
  finish_law(f, h);
}

/* The number of the table's check: nothing has the empty relation. */
static size_t checked(size_t edition, text t, const size_t *links, const size_t *params, size_t param_count) {
  static const uint8_t none;
  capstan_search_answer s = capstan_search(edition, lent(t), t.length, links, CAPSTAN_LINK_SLOTS * LINKS, params,
                                           CAPSTAN_PARAM_SLOTS * PARAMS, 1, param_count, &none, 0);
  MUST(s.link == 0);
  return s.number;
}

/* A table of one link that has this part of a text for its target, which is a reference or not. */
static void table_law(size_t edition, text t, size_t start, size_t end, int fit) {
  size_t *links = held_links(), number = t.length > LIMIT ? CAPSTAN_TOO_LONG : fit ? CAPSTAN_NOT_FOUND : CAPSTAN_BAD_TABLE;
  links[0] = start, links[1] = end, links[2] = links[3] = 0;
  MUST(checked(edition, t, links, held_params(), 0) == number);
}

/* Octets of a target stand in quotes too, and as an anchor they aren't judged. */
static void anchor_law(size_t edition, header h) {
  static uint8_t octets[MOST];
  size_t *links = held_links(), *params = held_params(), start = put(octets, 0, "<>;anchor=\""), target = h.length - 1 - h.start;
  text t = {octets, start + target + 1};
  if (t.length > LIMIT) return;
  memcpy(octets + start, h.octets + h.start, target);
  octets[start + target] = '"';
  capstan_read_answer a = read_in(edition, t, links, params);
  MUST(a.number == 0 && a.links == 1 && a.params == 1 && params[2] == start && params[3] == start + target);
  MUST(checked(edition, t, links, params, 1) == CAPSTAN_NOT_FOUND);
}

/* All that is held of a header in an edition. */
static void header_laws(size_t edition, header h, text how) {
  read_law(edition, h);
  octets_law(edition, h);
  parts_law(edition, h, how);
  table_law(edition, (text){h.octets, h.length}, h.start, h.length - 1, h.fit);
  if (h.wrong == h.length) anchor_law(edition, h);
}

size_t LLVMFuzzerMutate(uint8_t *input, size_t size, size_t most);

/* Every other change of an input is a small one: an octet that some rule speaks of, put before another or in its place. */
size_t LLVMFuzzerCustomMutator(uint8_t *input, size_t size, size_t most, unsigned int seed) {
  static const char octets[] = "012456af:.[]/?#@%v>";
  size_t place = seed / 256 % (size + 1), gone = seed / 2 % 2;
  if (seed % 2 == 0 || size == most || place + gone > size) return LLVMFuzzerMutate(input, size, most);
  memmove(input + place + 1, input + place + gone, size - place - gone);
  input[place] = octets[seed / 4 % strlen(octets)];
  return size + 1 - gone;
}

int LLVMFuzzerInitialize(int *argc, char ***argv) {
  (void)argc, (void)argv;
  text_end = lent_end(MOST);
  buffer_end = lent_end(LIMIT);
  link_end = lent_end(CAPSTAN_LINK_SLOTS * LINKS * sizeof(size_t));
  param_end = lent_end(CAPSTAN_PARAM_SLOTS * PARAMS * sizeof(size_t));
  return 0;
}

int LLVMFuzzerTestOneInput(const uint8_t *input, size_t size) {
  if (size > 2 * LIMIT) return -1;
  text whole = {input, size}, target = first(whole, before(whole, ">"));
  text how = behind(whole, target.length < size ? target.length + 1 : size);
  int fit = is_reference(whole); /* with all that stands behind a `>` */
  for (size_t frame = 0; frame < FRAMES; frame++) {
    header h = made(target, frames[frame], how.length > 0 ? how.at[0] : 0);
    header_laws(CAPSTAN_RFC8288, h, how);
    header_laws(CAPSTAN_RFC5988, h, how);
  }
  table_law(CAPSTAN_RFC8288, whole, 0, size, fit);
  table_law(CAPSTAN_RFC5988, whole, 0, size, fit);
  return 0;
}
