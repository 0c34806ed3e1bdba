/* Memory that is lent: its end is the end of a page behind which nothing may be read or written. */
#ifndef LENT_H
#define LENT_H

#include <stddef.h>
#include <stdint.h>
#include <stdio.h>
#include <stdlib.h>
#include <string.h>
#include <sys/mman.h>

#define PAGE ((size_t)4096)

/* The end of so many octets; made once. */
static uint8_t *lent_end(size_t octets) {
  size_t pages = (octets + PAGE - 1) / PAGE;
  uint8_t *start = mmap(NULL, (pages + 1) * PAGE, PROT_READ | PROT_WRITE, MAP_PRIVATE | MAP_ANONYMOUS, -1, 0);
  if (start == MAP_FAILED || mprotect(start + pages * PAGE, PAGE, PROT_NONE) != 0) {
    perror("fuzz: no memory to lend");
    exit(2);
  }
  return start + pages * PAGE;
}

#define HELD 0xA7 /* each octet of what is lent for writing */

/* Room of so many octets that holds the pattern. */
static void *held(uint8_t *end, size_t octets) { return memset(end - octets, HELD, octets); }

/* Each octet is the one before it, and the first is the pattern's; a loop of our own would be slow, since the fuzzer watches it. */
static int still_held(const void *from, size_t octets) {
  const uint8_t *octet = from;
  return octets == 0 || (*octet == HELD && memcmp(octet, octet + 1, octets - 1) == 0);
}

/* A law that must hold. */
#define MUST(law)                                              \
  do {                                                         \
    if (!(law)) {                                              \
      fprintf(stderr, "%s:%d: %s\n", __FILE__, __LINE__, #law); \
      abort();                                                 \
    }                                                          \
  } while (0)

#endif
