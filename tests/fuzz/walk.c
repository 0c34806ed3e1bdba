/* A libFuzzer target: a walk through a catalogue, made in a way of its own: by the library's other entries, a line at a time, with no table
   of where packs stand. A link by itself is a table of one, which is searched for the relation and asked for its context; its target is
   resolved, and looked for from the last line to the first. The library must say the same, whatever is lent for work, and touch nothing
   but that. The input is how many links and parameters there is room for, the start, the steps in two octets, and the catalogue, or the
   values of one, a line for each. README.md says how to run it. */
#include "capstan.h"
#include "lent.h"
#include "reference.h"

enum { LIMIT = CAPSTAN_LIMIT, MOST = CAPSTAN_CATALOGUE_LIMIT + 64, LINKS = 64, PARAMS = 255, HEAD = 5 };
enum { OWN_LINKS = 2731, OWN_PARAMS = 4096 };

typedef struct {
  size_t links, params, octets;
} room;

/* The first line, without its LF; the whole text if it has none. */
static text line_of(text t) { return first(t, before(t, "\n")); }

static text uri_of(text line) { return first(line, before(line, "\t")); }

static text value_of(text line) { return behind(line, uri_of(line).length + 1); }

static int same(text a, text b) { return a.length == b.length && memcmp(a.at, b.at, a.length) == 0; }

/* A URI without a fragment: a reference that begins with a scheme. */
static int is_absolute(text t) {
  size_t colon = before(t, ":/?#");
  return is_reference(t) && before(t, "#") == t.length && colon > 0 && colon < t.length && t.at[colon] == ':';
}

/* Tables of our own, in the most room that a value may take. */
static size_t own_links[OWN_LINKS * CAPSTAN_LINK_SLOTS], own_params[OWN_PARAMS * CAPSTAN_PARAM_SLOTS];

static capstan_read_answer read_value(text value) {
  return capstan_read(CAPSTAN_RFC8288, value.at, value.length, own_links, OWN_LINKS * CAPSTAN_LINK_SLOTS, own_params,
                      OWN_PARAMS * CAPSTAN_PARAM_SLOTS);
}

/* How many packs the catalogue has, or SIZE_MAX if it is none. */
static size_t packs_of(text catalogue, room r) {
  size_t packs = 0;
  if (catalogue.length > CAPSTAN_CATALOGUE_LIMIT) return SIZE_MAX;
  for (text rest = catalogue; rest.length > 0; packs++) {
    text line = line_of(rest), uri = uri_of(line);
    if (line.length == rest.length || uri.length == line.length || !is_absolute(uri)) return SIZE_MAX;
    capstan_read_answer read = read_value(value_of(line));
    if (read.number != CAPSTAN_DONE || read.links > r.links || read.params > r.params) return SIZE_MAX;
    rest = behind(rest, line.length + 1);
    for (text other = rest; other.length > 0; other = behind(other, line_of(other).length + (line_of(other).length < other.length)))
      if (same(uri_of(line_of(other)), uri)) return SIZE_MAX;
  }
  return packs <= CAPSTAN_PACK_LIMIT ? packs : SIZE_MAX;
}

static text pack_at(text catalogue, size_t number) {
  while (number-- > 0) catalogue = behind(catalogue, line_of(catalogue).length + 1);
  return line_of(catalogue);
}

/* Whether the link has the relation, and the base for its context. */
static int is_followed(text value, const size_t *link, const char *relation) {
  const size_t one[CAPSTAN_LINK_SLOTS] = {link[0], link[1], 0, link[3]}, *params = own_params + CAPSTAN_PARAM_SLOTS * link[2];
  size_t slots = CAPSTAN_PARAM_SLOTS * link[3];
  capstan_search_answer s = capstan_search(CAPSTAN_RFC8288, value.at, value.length, one, CAPSTAN_LINK_SLOTS, params, slots, 1, link[3],
                                           (const uint8_t *)relation, strlen(relation));
  capstan_context_answer c = capstan_context(CAPSTAN_RFC8288, value.at, value.length, value.at, 0, one, CAPSTAN_LINK_SLOTS, params, slots,
                                             1, link[3], 0);
  return s.number == CAPSTAN_DONE && c.source == CAPSTAN_BASE;
}

/* One step from a pack, to the number of another; or how it ends. */
static size_t step(text catalogue, size_t packs, const char *relation, size_t *pack) {
  static uint8_t out[LIMIT];
  text line = pack_at(catalogue, *pack), uri = uri_of(line), value = value_of(line);
  size_t links = read_value(value).links, i = 0;
  while (i < links && !is_followed(value, own_links + CAPSTAN_LINK_SLOTS * i, relation)) i++;
  if (i == links) return CAPSTAN_NO_LINK;
  const size_t *link = own_links + CAPSTAN_LINK_SLOTS * i;
  capstan_length_answer a = capstan_resolve(value.at + link[0], link[1] - link[0], uri.at, uri.length, out, LIMIT);
  if (a.number != CAPSTAN_DONE) return CAPSTAN_NO_TARGET;
  for (size_t number = packs; number-- > 0;)
    if (same(uri_of(pack_at(catalogue, number)), (text){out, a.length})) return *pack = number, CAPSTAN_ARRIVED;
  return CAPSTAN_NO_PACK;
}

static capstan_walk_answer due(text catalogue, size_t start, int32_t steps, room r) {
  size_t far = steps < -CAPSTAN_STEP_LIMIT || steps > CAPSTAN_STEP_LIMIT, packs = packs_of(catalogue, r);
  if (far) return (capstan_walk_answer){CAPSTAN_OUT_OF_RANGE, 0, 0, 0};
  if (packs == SIZE_MAX) return (capstan_walk_answer){CAPSTAN_BAD_CATALOGUE, 0, 0, 0};
  if (start >= packs) return (capstan_walk_answer){CAPSTAN_NO_SUCH_LINK, 0, 0, 0};
  if (r.octets < LIMIT) return (capstan_walk_answer){CAPSTAN_NO_OUTPUT_ROOM, 0, 0, 0};
  capstan_walk_answer a = {CAPSTAN_DONE, CAPSTAN_ARRIVED, start, 0};
  for (; steps != 0; steps -= steps < 0 ? -1 : 1, a.steps++)
    if ((a.end = step(catalogue, packs, steps < 0 ? "prev" : "next", &a.pack)) != CAPSTAN_ARRIVED) break;
  return a;
}

/* The end, the number, and how far the walk went guide the fuzzer, and how much of the text is lines of packs. */
__attribute__((section("__libfuzzer_extra_counters"))) static uint8_t counters[16 + 5 * 65 + 256];

static void seen(capstan_walk_answer a, text catalogue, room r) {
  size_t packs = packs_of(catalogue, r);
  counters[a.number] = 1;
  if (a.number == CAPSTAN_DONE) counters[16 + a.end * 65 + a.steps] = 1;
  if (packs != SIZE_MAX) counters[16 + 5 * 65 + (packs < 255 ? packs : 255)] = 1;
}

static uint8_t *text_end, *link_end, *param_end, *work_end;

enum { LINK_OCTETS = CAPSTAN_LINK_SLOTS * sizeof(size_t), PARAM_OCTETS = CAPSTAN_PARAM_SLOTS * sizeof(size_t) };

/* Walks with what is lent at the end of its memory, all of which holds one pattern or what another walk left there. */
static capstan_walk_answer walk(text catalogue, size_t start, int32_t steps, room r, int again) {
  size_t link_octets = r.links * LINK_OCTETS, param_octets = r.params * PARAM_OCTETS;
  uint8_t *octets = memcpy(text_end - catalogue.length, catalogue.at, catalogue.length);
  if (!again) {
    held(link_end, (LINKS + 1) * LINK_OCTETS);
    held(param_end, (PARAMS + 1) * PARAM_OCTETS);
    held(work_end, LIMIT + PAGE);
  }
  size_t *links = (size_t *)(link_end - link_octets), *params = (size_t *)(param_end - param_octets);
  capstan_walk_answer a = capstan_walk(octets, catalogue.length, start, steps, links, r.links * CAPSTAN_LINK_SLOTS, params,
                                       r.params * CAPSTAN_PARAM_SLOTS, work_end - r.octets, r.octets);
  MUST(memcmp(octets, catalogue.at, catalogue.length) == 0);
  MUST(still_held(link_end - (LINKS + 1) * LINK_OCTETS, (LINKS + 1) * LINK_OCTETS - link_octets));
  MUST(still_held(param_end - (PARAMS + 1) * PARAM_OCTETS, (PARAMS + 1) * PARAM_OCTETS - param_octets));
  MUST(still_held(work_end - LIMIT - PAGE, LIMIT + PAGE - r.octets));
  return a;
}

static int equal(capstan_walk_answer a, capstan_walk_answer b) {
  return a.number == b.number && a.end == b.end && a.pack == b.pack && a.steps == b.steps;
}

/* Where half of the steps arrive, the other half from there ends as all of them do. */
static void walk_law(text catalogue, size_t start, int32_t steps, room r) {
  capstan_walk_answer a = walk(catalogue, start, steps, r, 0), d = due(catalogue, start, steps, r);
  seen(d, catalogue, r);
  MUST(equal(a, d));
  MUST(equal(walk(catalogue, start, steps, r, 1), d));
  if (d.number != CAPSTAN_DONE) return;
  int32_t half = steps / 2;
  capstan_walk_answer one = walk(catalogue, start, half, r, 1);
  if (one.end != CAPSTAN_ARRIVED) {
    MUST(equal(one, d));
    return;
  }
  capstan_walk_answer other = walk(catalogue, one.pack, steps - half, r, 1);
  other.steps += one.steps;
  MUST(equal(other, d));
}

int LLVMFuzzerInitialize(int *argc, char ***argv) {
  (void)argc, (void)argv;
  text_end = lent_end(MOST);
  link_end = lent_end((LINKS + 1) * LINK_OCTETS);
  param_end = lent_end((PARAMS + 1) * PARAM_OCTETS);
  work_end = lent_end(LIMIT + PAGE);
  return 0;
}

/* Each line of the text as the value of a pack, whose URI is its number in a folder; those numbers are short targets. */
static text numbered(text values) {
  static uint8_t octets[MOST];
  size_t end = 0;
  for (size_t number = 0; values.length > 0; number++) {
    text line = line_of(values);
    if (end + line.length + 32 > MOST) break;
    end += (size_t)sprintf((char *)octets + end, "a:/%zu\t", number);
    memcpy(octets + end, line.at, line.length);
    octets[end += line.length] = '\n';
    end++;
    values = behind(values, line.length + (line.length < values.length));
  }
  return (text){octets, end};
}

/* Steps are mostly in range, and sometimes any two octets, in the higher half of the number too. */
int LLVMFuzzerTestOneInput(const uint8_t *input, size_t size) {
  if (size < HEAD || size - HEAD > CAPSTAN_CATALOGUE_LIMIT + 2) return -1;
  text catalogue = {input + HEAD, size - HEAD};
  room r = {input[0] % (LINKS + 1), input[1], input[1] % 16 == 7 ? LIMIT - 1 : LIMIT};
  int32_t few = input[3] % 133 - 66, any = (int32_t)((uint32_t)input[3] << (input[4] % 32));
  int32_t steps = input[4] % 8 == 7 ? any : few;
  walk_law(catalogue, input[2], steps, r);
  walk_law(numbered(catalogue), input[2], steps, r);
  return 0;
}
