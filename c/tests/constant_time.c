/*
 * Calls each function of SOURCE, which is portable.c or a mutant of it, at each length up to 200, with bytes or digits
 * that are marked as undefined for valgrind's memcheck. This reports each branch and each address that depends on one,
 * except through PUBLIC.
 */
#include <stddef.h>
#include <stdlib.h>
#include <string.h>
#include <valgrind/memcheck.h>

static size_t public(size_t value) {
  VALGRIND_MAKE_MEM_DEFINED(&value, sizeof value);
  return value;
}
#define PUBLIC(value) public(value)
#include SOURCE

enum { MAX_LENGTH = 200 };

/* Global, so that the compiler cannot remove the writes. */
unsigned char bytes[MAX_LENGTH];
char text[CONST_HEX_ENCODED_SIZE(MAX_LENGTH, CONST_HEX_PREFIX)];

/* Encodes undefined bytes. */
static void encode(size_t length, unsigned flags) {
  for (size_t index = 0; index < length; index++) {
    bytes[index] = (unsigned char)(37 * index + length);
  }
  VALGRIND_MAKE_MEM_UNDEFINED(bytes, length);
  if (!const_hex_encode(bytes, length, text, sizeof text, flags)) {
    exit(1);
  }
}

/* Checks and decodes undefined digits after a prefix. Returns whether each function returns the right result. */
static bool decode(size_t length, const char *prefix) {
  size_t written, start = strlen(prefix);
  bool is_even = length % 2 == 0;
  bool is_right = true;
  for (size_t index = 0; index < length; index++) {
    text[index] = "0123456789abcdefABCDEF"[(7 * index + length) % 22];
  }
  memcpy(text, prefix, start);
  VALGRIND_MAKE_MEM_UNDEFINED(text, length);
  is_right &= const_hex_check_raw(text, length) == (start == 0);
  is_right &= const_hex_check(text, length, NULL) == is_even;
  is_right &= const_hex_decode(text, length, bytes, sizeof bytes, &written, NULL) == is_even;
  is_right &= const_hex_decode_exact(text, length, bytes, (length - start) / 2, NULL) == is_even;
  for (size_t cut = 0; cut <= length; cut += 1 + length / 8) {
    struct const_hex_decoder decoder = {{0, 0}};
    is_right &= const_hex_decoder_update(&decoder, text, cut, bytes, sizeof bytes, &written, NULL);
    is_right &= const_hex_decoder_update(&decoder, text + cut, length - cut, bytes, sizeof bytes,
                                         &written, NULL);
    is_right &= const_hex_decoder_finish(&decoder, NULL) == is_even;
  }
  return is_right;
}

int main(void) {
  for (size_t length = 0; length <= MAX_LENGTH; length++) {
    for (unsigned flags = 0; flags < 8; flags++) {
      encode(length, flags);
    }
    if (!decode(length, "") || (length >= 2 && !(decode(length, "0x") && decode(length, "0X")))) {
      return 1;
    }
  }
  return 0;
}
