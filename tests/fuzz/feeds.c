/* A libFuzzer target: a header fed in parts, each answer held to what capstan_read says of the octets so far in the same edition, which
   may be an unknown one; and states and buffers of any making, held to what may never be touched. The first octets of an input say the
   edition and how it is cut. README.md says how to run it. */
#include "capstan.h"
#include "lent.h"

enum { LIMIT = CAPSTAN_LIMIT, MOST = LIMIT + 64, LINKS = LIMIT / 2, PARAMS = LIMIT / 2, COUNTERS = 640 };

__attribute__((section("__libfuzzer_extra_counters"))) static uint8_t counters[4 * COUNTERS];

static void seen(size_t kind, size_t what) {
  if (what < COUNTERS) counters[kind * COUNTERS + what] = 1;
}

/* Just so many octets of the heap, where a sanitizer watches this file, or at the end of a page, which also stops the library. */
typedef struct {
  uint8_t *end, *start;
  int heap;
} room;

static room part_room, buffer_room, link_room, param_room;
static int heap;

static void *lend(room *r, size_t octets) {
  r->heap = heap;
  r->start = heap ? malloc(octets) : r->end - octets;
  MUST(r->start != NULL);
  return held(r->start + octets, octets);
}

static void give_back(room *r) {
  if (r->heap) free(r->start);
}

/* The octets that say how: each is taken once, and then there are zeros. */
typedef struct {
  const uint8_t *next;
  size_t left;
} octets;

static size_t take(octets *o) {
  if (o->left == 0) return 0;
  o->left--;
  return *o->next++;
}

/* A feeding, with what its buffer should hold. */
typedef struct {
  capstan_feeding state;
  uint8_t *buffer, *model;
  size_t buffer_len;
} feeding;

static int known(size_t edition) { return edition == CAPSTAN_RFC8288 || edition == CAPSTAN_RFC5988; }

static int same_state(capstan_feeding a, capstan_feeding b) {
  return a.edition == b.edition && a.phase == b.phase && a.total == b.total && a.place == b.place && a.target == b.target &&
         a.judged == b.judged;
}

/* Of any state: a feed that is done counts its octets, and finds nothing wrong; a refused one leaves all else as it was. */
static void next_law(capstan_feeding state, capstan_feed_answer a, size_t length) {
  capstan_feeding due = a.number == 0 ? a.next : state;
  due.edition = state.edition;
  if (a.number == 0 || a.number == 2) due.total = state.total + length;
  if (a.number == 0) due.place = due.total;
  if (a.number == 1) due.total = LIMIT + 1;
  if (a.number == 2) due.place = a.place;
  MUST(same_state(a.next, due));
}

/* Of any state: the place is the one that it remembers, or else lies in the part, or is the start of the target that is open, which lies
   nowhere behind the octets that counted. */
static void place_law(capstan_feeding state, size_t place, size_t length) {
  size_t start = state.target < state.total ? state.target : state.total;
  int in_part = place >= state.total && place - state.total < length;
  int open = state.phase >= 1 && state.phase <= 3 && length > 0;
  MUST(state.place < state.total ? place == state.place : in_part || (open && place == start));
}

/* Feeds with so many octets of the buffer; the part is lent anew. The buffer is looked at by the caller. */
static capstan_feed_answer feed(feeding *f, const uint8_t *part, size_t length, size_t buffer_len) {
  uint8_t *lent = lend(&part_room, length);
  memcpy(lent, part, length);
  capstan_feed_answer a = capstan_feed(f->state, lent, length, f->buffer, buffer_len);
  MUST(memcmp(lent, part, length) == 0);
  give_back(&part_room);
  MUST(a.number <= 2 || a.number == 7 || a.number == 10);
  MUST((a.number == 10) == !known(f->state.edition));
  MUST((a.number == 7) == (known(f->state.edition) && buffer_len < LIMIT));
  MUST(a.number == 2 || a.place == 0);
  if (a.number == 2) place_law(f->state, a.place, length);
  next_law(f->state, a, length);
  f->state = a.next;
  return a;
}

/* What a feed behind which these octets count should answer; what is only cut short begins a header. */
static capstan_feed_answer expected(size_t edition, const uint8_t *header, size_t length) {
  static size_t none;
  capstan_read_answer r = capstan_read(edition, header, length, &none, 0, &none, 0);
  capstan_feed_answer a = {0};
  a.number = r.number == 1 || r.number == 10 ? r.number : r.number == 2 && r.place < length ? 2 : 0;
  a.place = a.number == 2 ? r.place : 0;
  return a;
}

/* Finishes in so many slots; the tables are left lent. */
static capstan_read_answer finish(feeding *f, size_t buffer_len, size_t link_slots, size_t param_slots) {
  size_t *links = lend(&link_room, link_slots * sizeof(size_t));
  size_t *params = lend(&param_room, param_slots * sizeof(size_t));
  capstan_read_answer a = capstan_finish(f->state, f->buffer, buffer_len, links, link_slots, params, param_slots);
  MUST(a.number <= 4 || a.number == 7 || a.number == 10);
  MUST((a.number == 10) == !known(f->state.edition));
  MUST((a.number == 7) == (known(f->state.edition) && buffer_len < LIMIT));
  MUST(a.number == 2 || a.place == 0);
  MUST(a.number == 0 || (a.links == 0 && a.params == 0));
  size_t link_used = 4 * a.links, param_used = CAPSTAN_PARAM_SLOTS * a.params;
  MUST(link_used <= link_slots && param_used <= param_slots);
  MUST(still_held(links + link_used, (link_slots - link_used) * sizeof(size_t)));
  MUST(still_held(params + param_used, (param_slots - param_used) * sizeof(size_t)));
  MUST(memcmp(f->buffer, f->model, f->buffer_len) == 0);
  return a;
}

static void give_tables_back(void) {
  give_back(&link_room);
  give_back(&param_room);
}

/* The finish answers and fills what reading the octets so far does, in just that room; one slot fewer is too few. */
static void finish_law(feeding *f, const uint8_t *header, size_t length) {
  static size_t links[4 * LINKS], params[CAPSTAN_PARAM_SLOTS * PARAMS];
  capstan_read_answer r = capstan_read(f->state.edition, header, length, links, 4 * LINKS, params, CAPSTAN_PARAM_SLOTS * PARAMS);
  capstan_read_answer a = finish(f, f->buffer_len, 4 * r.links, CAPSTAN_PARAM_SLOTS * r.params);
  MUST(a.number == r.number && a.place == r.place && a.links == r.links && a.params == r.params);
  MUST(memcmp(link_room.start, links, 4 * a.links * sizeof(size_t)) == 0);
  MUST(memcmp(param_room.start, params, CAPSTAN_PARAM_SLOTS * a.params * sizeof(size_t)) == 0);
  give_tables_back();
  if (r.links > 0) {
    MUST(finish(f, f->buffer_len, 4 * r.links - 1, CAPSTAN_PARAM_SLOTS * r.params).number == 3);
    give_tables_back();
  }
  if (r.params > 0) {
    MUST(finish(f, f->buffer_len, 4 * r.links + 3, CAPSTAN_PARAM_SLOTS * r.params - 1).number == 4);
    give_tables_back();
  }
}

/* Calls for which the buffer is too small leave no trace. */
static void no_room_law(feeding *f, const uint8_t *part, size_t length, size_t small) {
  static const size_t rooms[] = {0, 1, LIMIT / 2, LIMIT - 1};
  size_t buffer_len = rooms[small % 4];
  feed(f, part, length, buffer_len);
  finish(f, buffer_len, 4, CAPSTAN_PARAM_SLOTS);
  give_tables_back();
}

/* Of octets with nothing wrong: the state names the start of the target that is open, if one is, and is the same wherever they were
   cut. */
static void state_law(capstan_feeding state, const uint8_t *header, size_t length) {
  static uint8_t buffer[LIMIT];
  size_t target = state.target;
  MUST(target <= length && (target > 0 || state.judged == 0));
  if (target > 0) MUST(header[target - 1] == '<' && memchr(header + target, '>', length - target) == NULL);
  MUST(same_state(state, capstan_feed(capstan_start(state.edition), header, length, buffer, LIMIT).next));
}

/* Feeds the octets from the start up to the end of a part. */
static void feed_law(feeding *f, const uint8_t *header, size_t start, size_t end) {
  capstan_feed_answer e = expected(f->state.edition, header, end), a = feed(f, header + start, end - start, f->buffer_len);
  MUST(a.number == e.number && a.place == e.place);
  if (a.number == 0) memcpy(f->model + start, header + start, end - start);
  if (a.number == 0) state_law(a.next, header, end);
  MUST(memcmp(f->buffer, f->model, f->buffer_len) == 0);
  seen(0, a.place);
  seen(1, (16 * a.next.phase + a.number) * 2 + a.next.edition % 2);
  seen(3, a.next.judged);
}

/* Each octet that says how is one part: how long it is, and what is called before it. */
static void cut_law(feeding *f, octets how, const uint8_t *header, size_t length) {
  size_t start = 0;
  while (how.left > 0) {
    size_t said = take(&how), left = length - start, part = (said & 31) << (said & 32 ? 8 : 0);
    if (part > left) part = left;
    if (said & 64) no_room_law(f, header, part, said);
    feed_law(f, header, start, start + part);
    start += part;
    if (said & 128) finish_law(f, header, start);
  }
  feed_law(f, header, start, length);
  finish_law(f, header, length);
  finish_law(f, header, length);
}

static size_t any_number(octets *how) {
  size_t said = take(how);
  if (said < 32) return said % 16;
  if (said < 64) return 32 * (said % 32) + take(how) % 32;
  if (said < 128) return LIMIT - 32 + said % 64;
  if (said < 192) return SIZE_MAX - said % 64;
  return SIZE_MAX / 256 * take(how) + said % 64;
}

/* A state of any numbers, and a buffer that nobody fed: with 0 just the part is stored, and else nothing. */
static void wild_law(feeding *f, octets how, const uint8_t *header, size_t length) {
  size_t fill = length < f->buffer_len ? length : f->buffer_len;
  memcpy(f->buffer, header, fill);
  memcpy(f->model, header, fill);
  if (take(&how) % 8 == 0) f->state.edition = any_number(&how);
  f->state.phase = any_number(&how), f->state.total = any_number(&how), f->state.place = any_number(&how);
  f->state.target = any_number(&how), f->state.judged = any_number(&how);
  for (int times = 0; times < 3; times++) {
    size_t total = f->state.total, part = take(&how), buffer_len = take(&how) % 8 == 0 ? LIMIT - 1 : f->buffer_len;
    if (part > length || part == 255) part = length;
    capstan_feed_answer a = feed(f, header + length - part, part, buffer_len);
    if (a.number == 0) {
      MUST(total <= LIMIT && part <= LIMIT - total);
      memcpy(f->model + total, header + length - part, part);
    }
    MUST(memcmp(f->buffer, f->model, f->buffer_len) == 0);
    capstan_read_answer r = finish(f, buffer_len, 4 * (part % 8), CAPSTAN_PARAM_SLOTS * (part % 8));
    give_tables_back();
    seen(2, 16 * (f->state.phase % 32) + r.number);
  }
}

static void start(feeding *f, size_t edition, size_t more) {
  f->state = capstan_start(edition);
  MUST(known(f->state.edition) == known(edition));
  f->buffer_len = LIMIT + more;
  f->buffer = lend(&buffer_room, f->buffer_len);
  f->model = malloc(f->buffer_len);
  MUST(f->model != NULL);
  memset(f->model, HELD, f->buffer_len);
}

static void end(feeding *f) {
  free(f->model);
  give_back(&buffer_room);
}

/* The header itself or, if that is said, with its last octet over and over up to about the limit. */
static size_t stretch(uint8_t *whole, const uint8_t *header, size_t length, size_t said) {
  size_t to = LIMIT - 8 + said % 16;
  memcpy(whole, header, length);
  if (said < 240 || length == 0 || length >= to) return length;
  memset(whole + length, whole[length - 1], to - length);
  return to;
}

int LLVMFuzzerInitialize(int *argc, char ***argv) {
  (void)argc, (void)argv;
  part_room.end = lent_end(2 * LIMIT);
  buffer_room.end = lent_end(MOST);
  link_room.end = lent_end(4 * LINKS * sizeof(size_t));
  param_room.end = lent_end(CAPSTAN_PARAM_SLOTS * PARAMS * sizeof(size_t));
  return 0;
}

int LLVMFuzzerTestOneInput(const uint8_t *input, size_t size) {
  static uint8_t header[2 * LIMIT];
  if (size > 2 * LIMIT) return -1;
  octets rest = {input, size};
  size_t said = take(&rest), size_said = take(&rest), parts = said % 32;
  octets how = {rest.next, parts < rest.left ? parts : rest.left};
  size_t length = stretch(header, how.next + how.left, rest.left - how.left, size_said);
  heap = said >= 128;
  size_t editions[] = {CAPSTAN_RFC8288, CAPSTAN_RFC5988, CAPSTAN_RFC5988, 2 + (size_said << size_said % 60)};
  size_t edition = editions[said / 32 % 4];
  feeding f;
  start(&f, edition, size_said % 3 * 16);
  cut_law(&f, how, header, length);
  end(&f);
  start(&f, edition, size_said % 3 * 16);
  wild_law(&f, how, header, length);
  end(&f);
  return 0;
}
