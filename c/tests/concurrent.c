/*
 * Data races: each function of the library, while another thread changes the text.
 */
#include "common.h"
#include <pthread.h>

enum { COUNT = 100, LENGTH = 2 * COUNT };

/* A text that another thread makes valid and invalid in turn, until `stops` is set. */
static volatile char changing[LENGTH];
static volatile bool stops;

static void *change(void *nothing) {
  while (!stops) {
    changing[77] = 'g';
    changing[77] = '0';
  }
  return nothing;
}

/* Calls one of the functions that read text, in turn. Returns whether it succeeds. */
static bool read_once(size_t turn, char *bytes) {
  const char *text = (const char *)changing;
  struct const_hex_decoder decoder = {{0, 0}};
  struct const_hex_error error;
  size_t written;
  switch (turn % 5) {
  case 0:
    return const_hex_decode(text, LENGTH, bytes, COUNT, &written, &error);
  case 1:
    return const_hex_decode_exact(text, LENGTH, bytes, COUNT, &error);
  case 2:
    return const_hex_check(text, LENGTH, &error);
  case 3:
    return const_hex_decoder_update(&decoder, text, LENGTH, bytes, COUNT, &written, &error) &&
           const_hex_decoder_finish(&decoder, &error);
  default:
    return const_hex_check_raw(text, LENGTH);
  }
}

/* Each function returns some result, and writes only to its output. On one processor the other thread seldom runs
 * between two calls, so the results seldom change: after 2,000,000 turns, one change is enough. */
static void test(void) {
  char *bytes = canary_buffer(areas.decoded, COUNT);
  pthread_t writer;
  memset((char *)changing, '0', LENGTH);
  stops = false;
  stops = pthread_create(&writer, NULL, change, NULL) != 0;
  bool last = stops;
  for (size_t turn = 0, changes = 0; !stops; turn++) {
    bool result = read_once(turn, bytes);
    changes += result != last;
    last = result;
    stops = turn > 200000 && changes > (turn > 2000000 ? 0 : 10000);
  }
  expect(pthread_join(writer, NULL) == 0, "the other thread", 0, 0);
  expect(is_rest_unchanged(areas.decoded, COUNT, COUNT), "a write outside", 0, 0);
}
