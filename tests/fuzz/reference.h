/* A judge of references by RFC 3986, which splits them into their components and judges each by itself, IPv6 by counting groups. */
#ifndef REFERENCE_H
#define REFERENCE_H

#include <stddef.h>
#include <stdint.h>
#include <string.h>

/* Some octets that stand one behind another. */
typedef struct {
  const uint8_t *at;
  size_t length;
} text;

static text first(text t, size_t length) { return (text){t.at, length}; }

static text behind(text t, size_t length) { return (text){t.at + length, t.length - length}; }

static int is_one_of(uint8_t octet, const char *marks) { return octet != 0 && strchr(marks, octet) != NULL; }

/* How many octets stand before the first of these marks, or in all. */
static size_t before(text t, const char *marks) {
  size_t i = 0;
  while (i < t.length && !is_one_of(t.at[i], marks)) i++;
  return i;
}

static int is_digit(uint8_t octet) { return octet >= '0' && octet <= '9'; }

static int is_alpha(uint8_t octet) { return (octet >= 'A' && octet <= 'Z') || (octet >= 'a' && octet <= 'z'); }

static int is_hex(uint8_t octet) { return is_digit(octet) || is_one_of(octet, "ABCDEFabcdef"); }

/* The unreserved octets, and the sub-delims. */
static int is_plain(uint8_t octet) { return is_alpha(octet) || is_digit(octet) || is_one_of(octet, "-._~!$&'()*+,;="); }

static int all(text t, int (*is)(uint8_t)) {
  for (size_t i = 0; i < t.length; i++)
    if (!is(t.at[i])) return 0;
  return 1;
}

static int is_triple(text t) { return t.length >= 3 && t.at[0] == '%' && is_hex(t.at[1]) && is_hex(t.at[2]); }

/* Plain octets, triples, and these marks besides. */
static int made_of(text t, const char *marks) {
  while (t.length > 0) {
    if (!is_triple(t) && !is_plain(t.at[0]) && !is_one_of(t.at[0], marks)) return 0;
    t = behind(t, is_triple(t) ? 3 : 1);
  }
  return 1;
}

static int is_scheme(text t) {
  for (size_t i = 0; i < t.length; i++)
    if (!is_alpha(t.at[i]) && (i == 0 || (!is_digit(t.at[i]) && !is_one_of(t.at[i], "+-.")))) return 0;
  return t.length > 0;
}

/* A number up to 255, without zeros that it doesn't need. */
static int is_small(text t) {
  size_t value = 0;
  if (t.length == 0 || t.length > 3 || !all(t, is_digit)) return 0;
  for (size_t i = 0; i < t.length; i++) value = 10 * value + (t.at[i] - '0');
  return value <= 255 && (t.length == 1 || t.at[0] != '0');
}

static int is_ipv4(text t) {
  for (size_t numbers = 1;; numbers++) {
    size_t dot = before(t, ".");
    if (!is_small(first(t, dot))) return 0;
    if (dot == t.length) return numbers == 4;
    t = behind(t, dot + 1);
  }
}

/* More groups than any address has: for those that are none. */
enum { NO_GROUPS = 9 };

/* How many groups stand between the colons. At the end of an address, one by IPv4 stands for two of them. */
static size_t groups(text t, int at_end) {
  if (t.length == 0) return 0;
  for (size_t count = 1;; count++) {
    size_t colon = before(t, ":");
    text group = first(t, colon);
    if (at_end && colon == t.length && is_ipv4(group)) return count + 1;
    if (group.length == 0 || group.length > 4 || !all(group, is_hex)) return NO_GROUPS;
    if (colon == t.length) return count;
    t = behind(t, colon + 1);
  }
}

/* Eight groups; or fewer, and `::` for those that aren't there. A second `::` would leave an empty group. */
static int is_ipv6(text t) {
  size_t gap = 0;
  while (gap + 1 < t.length && (t.at[gap] != ':' || t.at[gap + 1] != ':')) gap++;
  if (gap + 1 >= t.length) return groups(t, 1) == 8;
  return groups(first(t, gap), 0) + groups(behind(t, gap + 2), 1) < 8;
}

static int is_future(text t) {
  size_t dot = before(t, ".");
  if (dot < 2 || dot + 1 >= t.length) return 0;
  text version = behind(first(t, dot), 1), rest = behind(t, dot + 1);
  return is_one_of(t.at[0], "vV") && all(version, is_hex) && before(rest, "%") == rest.length && made_of(rest, ":");
}

/* Nothing, or a colon and a port, which may be empty. */
static int ends_with_port(text t) { return t.length == 0 || (t.at[0] == ':' && all(behind(t, 1), is_digit)); }

/* From the bracket on. */
static int is_literal_and_port(text t) {
  size_t end = before(t, "]");
  if (end == t.length) return 0;
  text inside = behind(first(t, end), 1);
  return (is_ipv6(inside) || is_future(inside)) && ends_with_port(behind(t, end + 1));
}

/* An IPv4 address is a name, too. */
static int is_host_and_port(text t) {
  size_t colon = before(t, ":");
  if (t.length > 0 && t.at[0] == '[') return is_literal_and_port(t);
  return made_of(first(t, colon), "") && ends_with_port(behind(t, colon));
}

static int is_authority(text t) {
  size_t at = before(t, "@");
  if (at == t.length) return is_host_and_port(t);
  return made_of(first(t, at), ":") && is_host_and_port(behind(t, at + 1));
}

/* What stands behind the scheme, if there is one, and before the query. Two slashes begin an authority, and it ends at the next; so the
   path behind it is empty or begins with a slash, and any other path begins with one slash at most. */
static int is_authority_and_path(text t, int has_scheme) {
  if (t.length > 1 && t.at[0] == '/' && t.at[1] == '/') {
    text rest = behind(t, 2);
    size_t end = before(rest, "/");
    return is_authority(first(rest, end)) && made_of(behind(rest, end), ":@/");
  }
  return made_of(t, ":@/") && (has_scheme || made_of(first(t, before(t, "/")), "@"));
}

/* A colon before any slash ends a scheme, but for one at the start, before which none can stand. */
static int is_without_query(text t) {
  size_t colon = before(t, ":/");
  int has_scheme = colon > 0 && colon < t.length && t.at[colon] == ':';
  if (!has_scheme) return is_authority_and_path(t, 0);
  return is_scheme(first(t, colon)) && is_authority_and_path(behind(t, colon + 1), 1);
}

/* The first `#` begins the fragment, and the first `?` before that the query, which may hold its own mark. */
static int is_reference(text t) {
  size_t hash = before(t, "#"), question = before(first(t, hash), "?");
  if (hash < t.length && !made_of(behind(t, hash + 1), ":@/?")) return 0;
  return made_of(behind(first(t, hash), question), ":@/?") && is_without_query(first(t, question));
}

#endif
