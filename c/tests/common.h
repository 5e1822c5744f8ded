/*
 * What the test programs share: buffers next to guard pages, and checks that are counted.
 */
#ifndef COMMON_H
#define COMMON_H
#define _GNU_SOURCE

#include "const_hex.h"
#include <inttypes.h>
#include <stdio.h>
#include <stdlib.h>
#include <string.h>
#ifdef _WIN32
#include <windows.h>
#else
#include <sys/mman.h>
#endif

/* ---- Memory ---- */

/* The size of an area and of the guard pages at each of its ends, the byte that fills an output before a call, and how
 * many bytes next to the output have it, too. */
enum { AREA = 33 << 16, GUARD = 1 << 16, CANARY = 0x6E, MARGIN = 64 };

/* Areas between guard pages: for input bytes, for text, and for decoded bytes. */
static struct { char *bytes, *text, *decoded; } areas;

static char *new_area(void) {
#ifdef _WIN32
  char *all = VirtualAlloc(NULL, AREA + 2 * GUARD, MEM_RESERVE, PAGE_NOACCESS);
  bool is_accessible =
      all != NULL && VirtualAlloc(all + GUARD, AREA, MEM_COMMIT, PAGE_READWRITE) != NULL;
#else
  char *all = (char *)mmap(NULL, AREA + 2 * GUARD, PROT_NONE, MAP_PRIVATE | MAP_ANONYMOUS, -1, 0);
  bool is_accessible =
      all != MAP_FAILED && mprotect(all + GUARD, AREA, PROT_READ | PROT_WRITE) == 0;
#endif
  if (!is_accessible) {
    puts("no area between guard pages");
    exit(2);
  }
  return all + GUARD;
}

static inline size_t min_size(size_t one, size_t other) { return one < other ? one : other; }

/* The start of a buffer at one end of the area and, in a second run, at the other. */
static bool at_start;
static inline char *buffer_start(char *area, size_t size) {
  return at_start ? area : area + AREA - size;
}

/* The same, in which each byte is the canary, as are those next to it. */
static inline char *canary_buffer(char *area, size_t size) {
  memset(buffer_start(area, size + MARGIN), CANARY, size + MARGIN);
  return buffer_start(area, size);
}

static inline bool is_canary(const char *bytes, size_t count) {
  return count == 0 || (bytes[0] == CANARY && memcmp(bytes, bytes + 1, count - 1) == 0);
}

/* Whether the bytes of such a buffer after the first `written`, and those next to it, are unchanged. */
static inline bool is_rest_unchanged(char *area, size_t size, size_t written) {
  const char *bytes = buffer_start(area, size);
  return is_canary(bytes + written, size - written) &&
         is_canary(at_start ? bytes + size : bytes - MARGIN, MARGIN);
}

/* ---- Checks ---- */

static unsigned long checks, failures;

/* Counts a check, and prints the first 20 that fail, with a length and another number. */
static inline void expect(bool is_true, const char *what, size_t length, size_t detail) {
  checks++;
  if (!is_true && failures++ < 20) {
    printf("FAILED: %s, at %zu, %zu\n", what, length, detail);
  }
}

/* An error that no function writes, and a count that a call has to overwrite. */
static const struct const_hex_error UNSET = {9, 9, 9};
enum { UNSET_COUNT = 99 };

/* Whether a function returned true and left the error unset, or returned false and wrote the expected one. */
static inline bool has_outcome(bool result, struct const_hex_error error,
                               struct const_hex_error expected) {
  struct const_hex_error wanted = expected.kind == 0 ? UNSET : expected;
  return result == (expected.kind == 0) && error.kind == wanted.kind && error.byte == wanted.byte &&
         error.index == wanted.index;
}

/* What each program defines. */
static void test(void);

int main(void) {
  areas.bytes = new_area();
  areas.text = new_area();
  areas.decoded = new_area();
  test();
  at_start = true;
  test();
  printf("%lu checks, %lu failures\n", checks, failures);
  return checks == 0 || failures > 0;
}

#endif
