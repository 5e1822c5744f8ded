/*
 * What neither a proof nor the table of test vectors covers: macros, messages for errors that no function returns, NULL
 * buffers, and lengths that no text has.
 */
#include "common.h"

static void macros(void) {
  expect(CONST_HEX_ENCODED_SIZE(3 + 1, 0) == 9 &&
             CONST_HEX_ENCODED_SIZE(20, CONST_HEX_PREFIX) == 43 &&
             CONST_HEX_ENCODED_SIZE(32, CONST_HEX_UPPER | CONST_HEX_NO_NUL) == 64,
         "CONST_HEX_ENCODED_SIZE", 0, 0);
  expect(CONST_HEX_VERSION == 10000 && const_hex_version() == CONST_HEX_VERSION, "the version", 0,
         0);
}

static void messages(void) {
  static const struct {
    struct const_hex_error error;
    const char *message;
  } rows[] = {
      {{CONST_HEX_INVALID_CHARACTER, 0x80, SIZE_MAX},
       SIZE_MAX > 0xffffffff ? "invalid character '\\u{80}' at position 18446744073709551615"
                             : "invalid character '\\u{80}' at position 4294967295"},
      /* No function sets these kinds and bytes. */
      {{4, 0, 0}, "out of memory"},
      {{CONST_HEX_INVALID_CHARACTER, 0x100, 7}, ""},
      {{CONST_HEX_INVALID_CHARACTER, 0x107A, 7}, ""},
      {{0, 0, 0}, ""},
      {{5, 0, 0}, ""},
  };
  for (size_t row = 0; row < sizeof rows / sizeof *rows; row++) {
    for (size_t size = 0; size <= CONST_HEX_MESSAGE_SIZE; size++) {
      char *message = canary_buffer(areas.text, size);
      size_t length = const_hex_error_message(&rows[row].error, message, size);
      size_t nul = min_size(size, 1);
      size_t expected = min_size(strlen(rows[row].message), size - nul);
      expect(length == expected && memcmp(message, rows[row].message, expected) == 0 &&
                 memcmp(message + expected, "", nul) == 0 &&
                 is_rest_unchanged(areas.text, size, expected + nul),
             "error_message", row, size);
    }
  }
}

/* A buffer of size 0 may be NULL. */
static void null_buffers(void) {
  struct const_hex_error error = UNSET;
  struct const_hex_decoder decoder = {{0, 0}};
  size_t written = UNSET_COUNT;
  size_t newly_written = UNSET_COUNT;
  expect(!const_hex_encode(NULL, 0, NULL, 0, 0) &&
             const_hex_encode(NULL, 0, NULL, 0, CONST_HEX_NO_NUL),
         "encode", 0, 0);
  expect(const_hex_decode(NULL, 0, NULL, 0, &written, &error) && written == 0, "decode", 0, 0);
  expect(const_hex_decode_exact(NULL, 0, NULL, 0, &error) &&
             const_hex_decode_exact("0X", 2, NULL, 0, &error),
         "decode_exact", 0, 0);
  expect(const_hex_check(NULL, 0, &error) && const_hex_check_raw(NULL, 0), "check", 0, 0);
  expect(const_hex_decoder_update(&decoder, NULL, 0, NULL, 0, &newly_written, &error) &&
             newly_written == 0 && const_hex_decoder_finish(&decoder, &error) &&
             error.kind == UNSET.kind,
         "a decoder", 0, 0);
  expect(!const_hex_decode_exact("6b", 2, NULL, 0, &error) &&
             error.kind == CONST_HEX_INVALID_LENGTH,
         "no space", 0, 0);
  expect(const_hex_error_message(&error, NULL, 0) == 0, "error_message", 0, 0);
}

/* Lengths that no text has, as from a failed read(): an error, before a byte is read or written. A compiler that knew
 * them would warn. */
static void lengths_that_wrap(void) {
  const volatile size_t size_max = SIZE_MAX;
  const char *text = memset(buffer_start(areas.text, 4096), '1', 4096);
  char *bytes = canary_buffer(areas.decoded, 4096);
  for (size_t less = 0; less <= 80; less += 2) {
    struct const_hex_error exact = UNSET, decode = UNSET, check = UNSET;
    size_t written = UNSET_COUNT;
    expect(!const_hex_decode_exact(text, size_max - 1 - less, bytes, 4096, &exact) &&
               exact.kind == CONST_HEX_INVALID_LENGTH,
           "decode_exact", less, 0);
    expect(!const_hex_decode(text, size_max - 1 - less, bytes, 4096, &written, &decode) &&
               decode.kind == CONST_HEX_INVALID_LENGTH && written == 0,
           "decode", less, 0);
    expect(!const_hex_check(text, size_max - less, &check) && check.kind == CONST_HEX_ODD_LENGTH,
           "check", less, 0);
  }
  expect(is_rest_unchanged(areas.decoded, 4096, 0), "a written buffer", 0, 0);
}

static void test(void) {
  macros();
  messages();
  null_buffers();
  lengths_that_wrap();
}
