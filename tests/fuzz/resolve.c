/* A libFuzzer target: a reference and a base, resolved in a way of its own: components by where they start, and a path from its last
   segment to its first, so that a `..` waits for the segment that it takes away. The library must say the same, in every room, and of a
   link whose `anchor` means the reference. The input is an octet that says how, the reference, a blank, and the base. README.md says how
   to run it. */
#include "capstan.h"
#include "lent.h"
#include "reference.h"

enum { LIMIT = CAPSTAN_LIMIT, MOST = 4 * LIMIT, LINKS = 2, PARAMS = 3, EDITIONS = 2 };

static text of(const char *octets) { return (text){(const uint8_t *)octets, strlen(octets)}; }

/* The components with their marks: an authority with the slashes before it, the scheme with its colon. One that isn't there is empty. */
typedef struct {
  text scheme, authority, path, query, fragment;
} parts;

static parts split(text t) {
  size_t colon = before(t, ":/?#"), end = colon < t.length && t.at[colon] == ':' ? colon + 1 : 0;
  parts p = {.scheme = first(t, end)};
  t = behind(t, end);
  end = t.length > 1 && t.at[0] == '/' && t.at[1] == '/' ? 2 + before(behind(t, 2), "/?#") : 0;
  p.authority = first(t, end);
  t = behind(t, end);
  p.path = first(t, before(t, "?#"));
  t = behind(t, p.path.length);
  p.query = first(t, before(t, "#"));
  p.fragment = behind(t, p.query.length);
  return p;
}

static int is_uri(text t) { return is_reference(t) && split(t).scheme.length > 0; }

/* The result is put from its end to its beginning. */
static uint8_t result[MOST];
static size_t start;

static void put_before(text t) { memcpy(result + (start -= t.length), t.at, t.length); }

/* How many dots the segment is, behind its slash if it has one; 0 if it is anything else. */
static size_t dots(text segment) {
  text t = behind(segment, segment.length > 0 && segment.at[0] == '/');
  return t.length > 0 && t.length < 3 && before(t, ".") == 0 && t.at[t.length - 1] == '.' ? t.length : 0;
}

/* Where the last segment starts: at its slash, or with the path. */
static size_t last_segment(text path) {
  size_t at = path.length;
  while (at > 0 && path.at[--at] != '/') {}
  return at;
}

/* The path without the dots in front that have no slash before them. */
static text without_first_dots(text path) {
  for (;;) {
    size_t slash = before(path, "/");
    if (slash == 0 || dots(first(path, slash)) == 0) return path;
    path = behind(path, slash < path.length ? slash + 1 : slash);
  }
}

/* Dots leave the slash before them where they are the last segment. */
static void put_path(text path) {
  size_t waiting = 0;
  path = without_first_dots(path);
  if (dots(behind(path, last_segment(path))) > 0) put_before(of("/"));
  while (path.length > 0) {
    text segment = behind(path, last_segment(path));
    size_t has = dots(segment);
    if (has == 0 && waiting == 0) put_before(segment);
    if (has == 0 && waiting > 0) waiting--;
    if (has == 2) waiting++;
    path.length -= segment.length;
  }
}

/* The path in place of the last segment of the base's, whose slash stays. */
static text merged(parts base, text path) {
  static uint8_t octets[MOST];
  size_t kept = last_segment(base.path), slash = kept < base.path.length && base.path.at[kept] == '/';
  memcpy(octets, base.path.at, kept);
  if (slash || base.authority.length > 0) octets[kept++] = '/';
  memcpy(octets + kept, path.at, path.length);
  return (text){octets, kept + path.length};
}

/* The octets of the target, of a base and a reference that are right. */
static text resolved(text base_octets, text reference) {
  parts base = split(base_octets), r = split(reference);
  int own = r.scheme.length > 0 || r.authority.length > 0, takes_path = !own && r.path.length == 0;
  start = MOST;
  put_before(r.fragment);
  put_before(takes_path && r.query.length == 0 ? base.query : r.query);
  if (takes_path)
    put_before(base.path);
  else
    put_path(own || r.path.at[0] == '/' ? r.path : merged(base, r.path));
  put_before(own ? r.authority : base.authority);
  put_before(r.scheme.length > 0 ? r.scheme : base.scheme);
  return (text){result + start, MOST - start};
}

/* What is due: the octets, or a refusal that comes before the one for the room. */
typedef struct {
  size_t refused;
  text octets;
} due;

static due judged(text base, text reference) {
  if (base.length > LIMIT || reference.length > LIMIT) return (due){CAPSTAN_TOO_LONG, base};
  if (!is_uri(base)) return (due){CAPSTAN_BAD_BASE, base};
  if (!is_reference(reference)) return (due){CAPSTAN_BAD_REFERENCE, base};
  text octets = resolved(base, reference);
  return (due){octets.length > LIMIT ? CAPSTAN_TOO_LONG : CAPSTAN_DONE, octets};
}

/* What was refused, which component was whose, and how much shorter the path became guides the fuzzer. */
__attribute__((section("__libfuzzer_extra_counters"))) static uint8_t counters[16 + 4096];

static void seen(due d, text base, text reference) {
  parts b = split(base), r = split(reference);
  size_t kind = (r.scheme.length > 0) + 2 * (r.authority.length > 0) + 4 * (r.path.length > 0) + 8 * (r.query.length > 0)
      + 16 * (b.authority.length > 0) + 32 * (b.path.length > 0);
  size_t gone = base.length + reference.length - d.octets.length;
  counters[d.refused] = 1;
  if (d.refused == CAPSTAN_DONE) counters[16 + kind * 64 + (gone < 63 ? gone : 63)] = 1;
}

static uint8_t *text_end, *base_end, *out_end, *link_end, *param_end;

static uint8_t *lent(uint8_t *end, text t) { return memcpy(end - t.length, t.at, t.length); }

static void out_law(capstan_length_answer a, due d, const uint8_t *out, size_t room) {
  size_t number = d.refused != CAPSTAN_DONE ? d.refused : d.octets.length > room ? CAPSTAN_NO_OUTPUT_ROOM : CAPSTAN_DONE;
  size_t length = number == CAPSTAN_DONE ? d.octets.length : 0;
  MUST(a.number == number && a.length == length && memcmp(out, d.octets.at, length) == 0 && still_held(out + length, room - length));
}

static void resolve_law(text base, text reference) {
  due d = judged(base, reference);
  size_t length = d.refused == CAPSTAN_DONE ? d.octets.length : 8, rooms[] = {length, length + 1, length > 0 ? length - 1 : 0, 0, LIMIT};
  seen(d, base, reference);
  for (size_t i = 0; i < sizeof rooms / sizeof *rooms; i++) {
    uint8_t *out = held(out_end, rooms[i]), *octets = lent(text_end, reference), *base_octets = lent(base_end, base);
    out_law(capstan_resolve(octets, reference.length, base_octets, base.length, out, rooms[i]), d, out, rooms[i]);
    MUST(memcmp(octets, reference.at, reference.length) == 0 && memcmp(base_octets, base.at, base.length) == 0);
  }
}

static size_t put(uint8_t *octets, size_t end, text more) {
  memcpy(octets + end, more.at, more.length);
  return end + more.length;
}

/* Asks the last link of the header, the link behind it, and in no edition. */
static void ask_law(size_t edition, text header, size_t link, text base, due d, size_t room) {
  size_t *links = held(link_end, CAPSTAN_LINK_SLOTS * LINKS * sizeof(size_t));
  size_t *params = held(param_end, CAPSTAN_PARAM_SLOTS * PARAMS * sizeof(size_t));
  const uint8_t *octets = lent(text_end, header), *base_octets = lent(base_end, base);
  capstan_read_answer r = capstan_read(edition, octets, header.length, links, CAPSTAN_LINK_SLOTS * LINKS, params,
                                       CAPSTAN_PARAM_SLOTS * PARAMS);
  MUST(r.number == CAPSTAN_DONE && r.links == link + 1);
  size_t long_base = base.length > LIMIT ? CAPSTAN_TOO_LONG : CAPSTAN_NO_SUCH_LINK;
  due dues[] = {d, {long_base, base}, {CAPSTAN_UNKNOWN_EDITION, base}};
  for (size_t i = 0; i < 3; i++) {
    uint8_t *out = held(out_end, room);
    size_t asked = i < 2 ? edition : edition + 2;
    out_law(capstan_resolved_context(asked, octets, header.length, base_octets, base.length, links, CAPSTAN_LINK_SLOTS * LINKS, params,
                                     CAPSTAN_PARAM_SLOTS * PARAMS, r.links, r.params, link + (i == 1), out, room),
            dues[i], out, room);
  }
  MUST(memcmp(octets, header.at, header.length) == 0 && memcmp(base_octets, base.at, base.length) == 0);
}

/* What may stand in quotes, or behind a backslash there. */
static int is_escapable(uint8_t octet) { return octet == '\t' || (octet >= ' ' && octet != 127); }

/* In quotes, with a backslash where one must stand and where that is said. */
static size_t put_quoted(uint8_t *octets, size_t end, text value, uint8_t how) {
  octets[end++] = '"';
  for (size_t i = 0; i < value.length; i++) {
    if (is_one_of(value.at[i], "\"\\") || (how / 4 + i) % 4 == 0) octets[end++] = '\\';
    octets[end++] = value.at[i];
  }
  octets[end++] = '"';
  return end;
}

/* The context of a link with this parameter, by itself or behind a link with an `anchor`, is what is resolved. */
static void link_law(text param, text base, text reference, uint8_t how) {
  static uint8_t octets[MOST];
  size_t link = how % 2, end = put(octets, 0, of(link ? "<a>;anchor=b, <c>;rel=d" : "<c>;rel=d"));
  text header = {octets, put(octets, end, param)};
  if (header.length > LIMIT) return;
  due d = judged(base, reference);
  size_t length = d.refused == CAPSTAN_DONE ? d.octets.length : 8;
  for (size_t edition = 0; edition < EDITIONS; edition++) {
    ask_law(edition, header, link, base, d, length);
    ask_law(edition, header, link, base, d, length + 3);
    if (length > 0) ask_law(edition, header, link, base, d, length - 1);
  }
}

/* An `anchor` that means the reference; and one without a value and none at all, which are as the empty reference. */
static void context_law(text base, text reference, uint8_t how) {
  static uint8_t octets[MOST];
  link_law(of(""), base, of(""), how);
  link_law(of(";Anchor"), base, of(""), how);
  for (size_t i = 0; i < reference.length; i++)
    if (!is_escapable(reference.at[i])) return;
  link_law((text){octets, put_quoted(octets, put(octets, 0, of(";ANCHOR=")), reference, how)}, base, reference, how);
}

int LLVMFuzzerInitialize(int *argc, char ***argv) {
  (void)argc, (void)argv;
  text_end = lent_end(MOST);
  base_end = lent_end(MOST);
  out_end = lent_end(MOST);
  link_end = lent_end(CAPSTAN_LINK_SLOTS * LINKS * sizeof(size_t));
  param_end = lent_end(CAPSTAN_PARAM_SLOTS * PARAMS * sizeof(size_t));
  return 0;
}

/* The base as it is given, and behind what makes most texts URIs. */
int LLVMFuzzerTestOneInput(const uint8_t *input, size_t size) {
  static const char *const frames[] = {"", "a:", "a:/", "a://h/"};
  static uint8_t base[MOST];
  if (size == 0 || size > LIMIT + 64) return -1;
  text whole = {input + 1, size - 1}, reference = first(whole, before(whole, " "));
  text rest = behind(whole, reference.length < whole.length ? reference.length + 1 : whole.length);
  for (size_t i = 0; i < sizeof frames / sizeof *frames; i++) {
    text framed = {base, put(base, put(base, 0, of(frames[i])), rest)};
    resolve_law(framed, reference);
    context_law(framed, reference, input[0]);
  }
  return 0;
}
