/*
 * The functions of const_hex.h in C99, for any processor:
 *
 *     cc -std=c99 -O2 -c portable.c
 *
 * A program needs this file and const_hex.h, and nothing else: no function of libc is called,
 * though a compiler may call its own division, or turn a loop into a call of memcpy or memset.
 *
 * No table is looked up. Except in const_hex_error_message, no branch depends on a byte or a digit, but
 * on lengths, sizes, flags and NULL, on whether characters are digits or a prefix, and on a decoder's
 * position and status. The comments in ACSL say what each function does. Frama-C proves them, as
 * README.md shows.
 */
#include "const_hex.h"

/* Declassifies a value, on which branches may depend: whether characters are digits, whether two
 * are a prefix, and the status of a decoder. tests/constant_time.c defines this macro for memcheck,
 * and tests that no branch and no address depends on anything else that is secret. */
#ifndef PUBLIC
#define PUBLIC(value) (value)
#endif

/* ---- Characters ---- */

/*@ requires value < 16;
    assigns \nothing;
    ensures \result == const_hex_digit(value, upper ? 'A' : 'a'); */
static char digit(unsigned value, bool upper) {
  unsigned is_letter = (value + 6) / 16; /* In ASCII 'A' is 7 above '9' + 1, and 'a' is 39. */
  return (char)('0' + value + (upper ? 7 * is_letter : 39 * is_letter));
}

/*@ requires character < 256 && first < 256;
    assigns \nothing;
    ensures \result == (character >= first ? 1 : 0); */
static unsigned is_at_least(unsigned character, unsigned first) {
  return (character + 256 - first) / 256;
}

/* The value of a digit. For another byte it is greater than 255. */
/*@ requires byte < 256;
    assigns \nothing;
    ensures const_hex_is_digit(byte) ==> \result == const_hex_value(byte);
    ensures !const_hex_is_digit(byte) ==> 256 <= \result < 512; */
static unsigned value_of_byte(unsigned byte) {
  unsigned decimal = is_at_least(byte, '0') - is_at_least(byte, '9' + 1);
  unsigned upper = is_at_least(byte, 'A') - is_at_least(byte, 'F' + 1);
  unsigned lower = is_at_least(byte, 'a') - is_at_least(byte, 'f' + 1);
  return byte + 256 - (256 + '0') * decimal - (256 + 'A' - 10) * upper - (256 + 'a' - 10) * lower;
}

/*@ assigns \nothing;
    ensures const_hex_is_digit(character) ==> \result == const_hex_value(character);
    ensures !const_hex_is_digit(character) ==> 256 <= \result < 512; */
static unsigned value(char character) { return value_of_byte((unsigned char)character); }

/* Compares both characters at once: a branch on the first would depend on a digit. */
/*@ requires first < 256;
    assigns \nothing;
    ensures \result <==> first == '0' && (second == 'x' || second == 'X'); */
static bool is_prefix(unsigned first, char second) {
  unsigned pair = 256u * first + (unsigned char)second;
  return PUBLIC(pair == 256u * '0' + 'x') || PUBLIC(pair == 256u * '0' + 'X');
}

/*@ requires \valid_read(text + (0 .. length - 1));
    assigns \nothing;
    ensures \result == const_hex_start(text, length); */
static size_t prefix_length(const char *text, size_t length) {
  return length >= 2 && is_prefix((unsigned char)text[0], text[1]) ? 2 : 0;
}

/* ---- Errors ---- */

/*@ requires error == \null || \valid(error);
    assigns *error;
    ensures \result == \false;
    ensures const_hex_is_error(error, kind, byte, index); */
static bool fail(struct const_hex_error *error, uint32_t kind, uint32_t byte, size_t index) {
  if (error != NULL) {
    error->kind = kind;
    error->byte = byte;
    error->index = index;
  }
  return false;
}

/* The length of the longest message. */
enum { MAX_MESSAGE = 59 };

/* A kind of error that no function of this library sets. */
enum { OUT_OF_MEMORY = 4 };

/* Writes a text before what starts at `start`, and returns where it starts. */
/*@ requires length <= start <= MAX_MESSAGE;
    requires \valid(space + (0 .. MAX_MESSAGE - 1));
    requires \valid_read(text + (0 .. length - 1));
    requires \separated(space + (0 .. MAX_MESSAGE - 1), text + (0 .. length - 1));
    assigns space[0 .. start - 1];
    ensures \result == start - length; */
static size_t prepend(char *space, size_t start, const char *text, size_t length) {
  /*@ loop invariant 0 <= length <= \at(length, Pre);
      loop invariant start == \at(start, Pre) - (\at(length, Pre) - length);
      loop assigns start, length, space[0 .. \at(start, Pre) - 1];
      loop variant length; */
  while (length > 0) {
    space[--start] = text[--length];
  }
  return start;
}

/*@ requires \valid(space + (0 .. MAX_MESSAGE - 1));
    assigns space[0 .. MAX_MESSAGE - 1];
    ensures \result == MAX_MESSAGE - const_hex_decimal_length(number); */
static size_t prepend_decimal(char *space, size_t number) {
  size_t start = MAX_MESSAGE - 1;
  /*@ loop invariant start < MAX_MESSAGE;
      loop invariant const_hex_decimal_length(number) + MAX_MESSAGE - 1 - start ==
          const_hex_decimal_length(\at(number, Pre));
      loop assigns start, number, space[0 .. MAX_MESSAGE - 1];
      loop variant number; */
  while (number >= 10) {
    space[start--] = (char)('0' + number % 10);
    number /= 10;
  }
  space[start] = (char)('0' + number);
  return start;
}

/* Writes a character, as an escape sequence if it needs one, before what starts at `start`, and
 * returns where it starts. */
/*@ requires byte < 256 && 6 <= start <= MAX_MESSAGE;
    requires \valid(space + (0 .. MAX_MESSAGE - 1));
    assigns space[0 .. start - 1];
    ensures \result == start - const_hex_escaped_length(byte); */
static size_t prepend_escaped(char *space, size_t start, unsigned byte) {
  char escape = byte == 0      ? '0'
                : byte == '\t' ? 't'
                : byte == '\n' ? 'n'
                : byte == '\r' ? 'r'
                               : (char)byte;
  if (byte == 0 || byte == '\t' || byte == '\n' || byte == '\r' || byte == '\'' || byte == '\\') {
    space[--start] = escape;
    space[--start] = '\\';
  } else if (byte < 32 || (byte >= 127 && byte <= 160) || byte == 173) {
    space[--start] = '}';
    space[--start] = digit(byte % 16, false);
    if (byte >= 16) {
      space[--start] = digit(byte / 16, false);
    }
    start = prepend(space, start, "\\u{", 3);
  } else if (byte < 127) {
    space[--start] = (char)byte;
  } else {
    space[--start] = (char)(0x80 + byte % 64);
    space[--start] = (char)(0xc0 + byte / 64);
  }
  return start;
}

/* Writes as much of a text as fits, and a NUL terminator. Returns the number of characters before it. */
/*@ requires \valid_read(text + (0 .. length - 1));
    requires \valid(message + (0 .. size - 1));
    requires \separated(text + (0 .. length - 1), message + (0 .. size - 1));
    assigns message[0 .. size - 1];
    ensures size == 0 ==> \result == 0;
    ensures size > 0 ==> \result == \min(size - 1, length) && message[\result] == 0;
    ensures \forall integer k; \result < k < size ==> message[k] == \old(message[k]); */
static size_t write_terminated(const char *text, size_t length, char *message, size_t size) {
  size_t count = 0;
  if (size == 0) {
    return 0;
  }
  /*@ loop invariant 0 <= count <= length && count < size;
      loop invariant \forall integer k; count <= k < size ==> message[k] == \at(message[k], Pre);
      loop assigns count, message[0 .. size - 1];
      loop variant length - count; */
  while (count < length && count < size - 1) {
    message[count] = text[count];
    count++;
  }
  message[count] = 0;
  return count;
}

size_t const_hex_error_message(const struct const_hex_error *error, char *message,
                               size_t message_size) {
  char space[MAX_MESSAGE];
  size_t start = MAX_MESSAGE;
  if (error->kind == CONST_HEX_ODD_LENGTH) {
    return write_terminated("odd number of digits", 20, message, message_size);
  }
  if (error->kind == CONST_HEX_INVALID_LENGTH) {
    return write_terminated("invalid string length", 21, message, message_size);
  }
  if (error->kind == OUT_OF_MEMORY) {
    return write_terminated("out of memory", 13, message, message_size);
  }
  if (error->kind == CONST_HEX_INVALID_CHARACTER && error->byte < 256) {
    start = prepend_decimal(space, error->index);
    start = prepend(space, start, "' at position ", 14);
    start = prepend_escaped(space, start, error->byte);
    start = prepend(space, start, "invalid character '", 19);
  }
  return write_terminated(space + start, MAX_MESSAGE - start, message, message_size);
}

/* ---- Encoding ---- */

/* The size of the prefix and of the NUL terminator. Flags are tested by divisions, which the provers
 * handle better than &: flags / 2 % 2 is the bit CONST_HEX_PREFIX, and flags / 4 % 2 the bit
 * CONST_HEX_NO_NUL. */
/*@ assigns \nothing;
    ensures \result == const_hex_size(0, flags); */
static size_t size_of_extras(unsigned flags) {
  return (flags / 2 % 2 == 1 ? 2u : 0u) + (flags / 4 % 2 == 0 ? 1u : 0u);
}

size_t const_hex_encoded_size(size_t bytes_length, unsigned flags) {
  size_t extras = size_of_extras(flags);
  if (flags > 7 || bytes_length > (SIZE_MAX - extras) / 2) {
    return SIZE_MAX;
  }
  return 2 * bytes_length + extras;
}

/*@ requires start <= 2 && start + 2 * length <= SIZE_MAX;
    requires \valid_read(bytes + (0 .. length - 1));
    requires \valid(text + (0 .. start + 2 * length - 1));
    requires \separated(bytes + (0 .. length - 1), text + (0 .. start + 2 * length - 1));
    assigns text[start .. start + 2 * length - 1];
    ensures const_hex_encoded(bytes, 0, length, text, start, upper ? 'A' : 'a'); */
static void fill(const unsigned char *bytes, size_t length, char *text, size_t start, bool upper) {
  /*@ loop invariant 0 <= index <= length;
      loop invariant const_hex_encoded(bytes, 0, index, text, start, upper ? 'A' : 'a');
      loop assigns index, text[start .. start + 2 * length - 1];
      loop variant length - index; */
  for (size_t index = 0; index < length; index++) {
    text[start + 2 * index] = digit(bytes[index] / 16u, upper);
    text[start + 2 * index + 1] = digit(bytes[index] % 16u, upper);
  }
}

bool const_hex_encode(const void *bytes, size_t bytes_length, char *text, size_t text_size,
                      unsigned flags) {
  size_t extras = size_of_extras(flags), start = 0;
  bool has_nul = flags / 4 % 2 == 0;
  if (flags > 7 || text_size < extras || bytes_length > (text_size - extras) / 2) {
    if (has_nul && text_size > 0) {
      text[0] = 0;
    }
    return false;
  }
  if (flags / 2 % 2 == 1) {
    text[0] = '0';
    text[1] = 'x';
    start = 2;
  }
  fill((const unsigned char *)bytes, bytes_length, text, start, flags % 2 == 1);
  if (has_nul) {
    text[start + 2 * bytes_length] = 0;
  }
  return true;
}

/* ---- Decoding and checking ---- */

/* The position of the first invalid character from `start` on, or the length. */
/*@ requires start <= length && \valid_read(text + (0 .. length - 1));
    assigns \nothing;
    ensures start <= \result <= length && const_hex_digits(text, start, \result);
    ensures \result < length ==> !const_hex_is_digit(text[\result]); */
static size_t find_invalid(const char *text, size_t start, size_t length) {
  size_t index = start;
  /*@ loop invariant start <= index <= length && const_hex_digits(text, start, index);
      loop assigns index;
      loop variant length - index; */
  while (index < length && PUBLIC(value(text[index]) < 16)) {
    index++;
  }
  return index;
}

/* Decodes the bytes from one position to another; the digits of the first are at `start`. Returns
 * the position of the first invalid character, or that after the digits. */
/*@ requires from <= to && start + 2 * (to - from) <= SIZE_MAX;
    requires \valid_read(text + (start .. start + 2 * (to - from) - 1));
    requires \valid(bytes + (from .. to - 1));
    requires \separated(text + (start .. start + 2 * (to - from) - 1), bytes + (from .. to - 1));
    assigns bytes[from .. to - 1];
    ensures start <= \result <= start + 2 * (to - from) && const_hex_digits(text, start, \result);
    ensures \result < start + 2 * (to - from) ==> !const_hex_is_digit(text[\result]);
    ensures const_hex_decoded(bytes, from, from + (\result - start) / 2, text, start - 2 * from);
    ensures const_hex_unchanged{Pre, Post}(bytes, from + (\result - start) / 2, to); */
static size_t decode_pairs(const char *text, size_t start, unsigned char *bytes, size_t from,
                           size_t to) {
  size_t position = start;
  /*@ loop invariant from <= index <= to && position == start + 2 * (index - from);
      loop invariant const_hex_digits(text, start, position);
      loop invariant const_hex_decoded(bytes, from, index, text, start - 2 * from);
      loop invariant const_hex_unchanged{Pre, Here}(bytes, index, to);
      loop assigns index, position, bytes[from .. to - 1];
      loop variant to - index; */
  for (size_t index = from; index < to; index++) {
    unsigned high = value(text[position]), low = value(text[position + 1]);
    /* The values of two digits are at most 30 together, and any other value is above 255. */
    if (PUBLIC(high + low > 30)) {
      return high > 15 ? position : position + 1;
    }
    bytes[index] = (unsigned char)(16 * high + low);
    position += 2;
  }
  return position;
}

bool const_hex_decode(const char *text, size_t text_length, void *bytes, size_t bytes_size,
                      size_t *written, struct const_hex_error *error) {
  *written = 0;
  if (text_length % 2 == 1) {
    return fail(error, CONST_HEX_ODD_LENGTH, 0, 0);
  }
  size_t start = prefix_length(text, text_length), count = (text_length - start) / 2;
  if (count > bytes_size) {
    return fail(error, CONST_HEX_INVALID_LENGTH, 0, 0);
  }
  size_t end = decode_pairs(text, start, (unsigned char *)bytes, 0, count);
  if (end < text_length) {
    return fail(error, CONST_HEX_INVALID_CHARACTER, (unsigned char)text[end], end);
  }
  *written = count;
  return true;
}

bool const_hex_decode_exact(const char *text, size_t text_length, void *bytes, size_t bytes_length,
                            struct const_hex_error *error) {
  if (text_length % 2 == 1) {
    return fail(error, CONST_HEX_ODD_LENGTH, 0, 0);
  }
  size_t start = prefix_length(text, text_length);
  if ((text_length - start) / 2 != bytes_length) {
    return fail(error, CONST_HEX_INVALID_LENGTH, 0, 0);
  }
  size_t end = decode_pairs(text, start, (unsigned char *)bytes, 0, bytes_length);
  if (end < text_length) {
    return fail(error, CONST_HEX_INVALID_CHARACTER, (unsigned char)text[end], end);
  }
  return true;
}

bool const_hex_check(const char *text, size_t text_length, struct const_hex_error *error) {
  if (text_length % 2 == 1) {
    return fail(error, CONST_HEX_ODD_LENGTH, 0, 0);
  }
  size_t end = find_invalid(text, prefix_length(text, text_length), text_length);
  if (end < text_length) {
    return fail(error, CONST_HEX_INVALID_CHARACTER, (unsigned char)text[end], end);
  }
  return true;
}

bool const_hex_check_raw(const char *text, size_t text_length) {
  return find_invalid(text, 0, text_length) == text_length;
}

/* ---- Decoding text that arrives in chunks ---- */

/* state[1] is 256 * status + character: the pending first digit of a byte, or the invalid
 * character. */
enum { EVEN = 0, PENDING = 1, FAILED = 2 };

/* Decodes a chunk whose digits start at `start` to `count` bytes, after the pending digit if
 * there is one. Returns the position of the first invalid character, or the length. */
/*@ requires start <= length && (pending ==> start == 0) && high_digit < 256;
    requires 2 * count <= length - start + pending <= 2 * count + 1;
    requires \valid_read(text + (0 .. length - 1)) && \valid(bytes + (0 .. count - 1));
    requires \separated(text + (0 .. length - 1), bytes + (0 .. count - 1));
    assigns bytes[0 .. count - 1];
    ensures within: start <= \result <= length;
    ensures digits: const_hex_digits(text, start, \result);
    ensures invalid: \result < length ==> !const_hex_is_digit(text[\result]);
    ensures decoded: const_hex_decoded(bytes, pending, (\result - start + pending) / 2, text, start - pending);
    ensures pending && \result > 0 && const_hex_is_digit(high_digit) ==>
        bytes[0] == 16 * const_hex_value(high_digit) + const_hex_value(text[0]);
    ensures const_hex_unchanged{Pre, Post}(bytes, (\result - start + pending) / 2, count); */
static size_t decode_digits(const char *text, size_t start, size_t length, unsigned char *bytes,
                            size_t count, bool pending, unsigned high_digit) {
  size_t position = start, first = 0;
  if (pending && length > 0) {
    unsigned low = value(text[0]);
    if (PUBLIC(low > 15)) {
      /*@ assert const_hex_decoded(bytes, pending, (0 - start + pending) / 2, text, start - pending); */
      return 0;
    }
    bytes[0] = (unsigned char)(16 * value_of_byte(high_digit) + low);
    position = first = 1;
  }
  position = decode_pairs(text, position, bytes, first, count);
  /*@ assert const_hex_digits(text, start, position); */
  /*@ assert pending && length > 0 && const_hex_is_digit(high_digit) ==>
        bytes[0] == 16 * const_hex_value(high_digit) + const_hex_value(text[0]); */
  /*@ assert const_hex_decoded(bytes, pending, (position - start + pending) / 2, text, start - pending); */
  /* The first digit of a byte may be left. */
  size_t end = find_invalid(text, position, length);
  /*@ assert end > position ==> position - start + pending == 2 * count && end == length; */
  /*@ assert (end - start + pending) / 2 == (position - start + pending) / 2; */
  /*@ assert const_hex_decoded(bytes, pending, (end - start + pending) / 2, text, start - pending); */
  return end;
}

/*@ requires \valid_read(decoder) && \valid_read(text + (0 .. length - 1));
    assigns \nothing;
    ensures \result == const_hex_chunk_start(decoder, text, length); */
static size_t chunk_start(const struct const_hex_decoder *decoder, const char *text,
                          size_t length) {
  if (decoder->state[0] == 0) {
    return prefix_length(text, length);
  }
  bool may_end_prefix = decoder->state[0] == 1 && length > 0;
  return may_end_prefix && is_prefix(decoder->state[1] % 256, text[0]) ? 1 : 0;
}

/* Whether there is a pending digit that belongs before a chunk whose digits start at `start`. */
/*@ requires \valid_read(decoder);
    assigns \nothing;
    ensures \result <==> const_hex_position(decoder) > 0 && start == 0 && const_hex_has_pending(decoder); */
static bool continues_pair(const struct const_hex_decoder *decoder, size_t start) {
  return decoder->state[0] > 0 && start == 0 && PUBLIC(decoder->state[1] / 256) == PENDING;
}

/*@ assigns \nothing;
    ensures \result == (digits + pending) / 2; */
static size_t count_pairs(size_t digits, bool pending) {
  return digits / 2 + (digits % 2 + pending) / 2;
}

/* Advances the decoder by `count` characters, and stores a status and a character. */
/*@ requires \valid(decoder) && status <= FAILED;
    assigns decoder->state[0 .. 1];
    ensures decoder->state[0] == \min(\old(decoder->state[0]) + count, SIZE_MAX);
    ensures decoder->state[1] / 256 == status;
    ensures decoder->state[1] % 256 == character; */
static void advance(struct const_hex_decoder *decoder, size_t count, size_t status,
                    unsigned char character) {
  size_t index = decoder->state[0];
  decoder->state[0] = index < SIZE_MAX - count ? index + count : SIZE_MAX;
  decoder->state[1] = 256 * status + character;
}

/* Advances the decoder past a chunk of valid characters. */
/*@ requires \valid(decoder) && \valid_read(text + (0 .. length - 1));
    requires \separated(decoder, text + (0 .. length - 1));
    requires start == const_hex_chunk_start(decoder, text, length);
    requires pending == const_hex_chunk_pending(decoder, text, length);
    requires const_hex_digits(text, start, length);
    assigns decoder->state[0 .. 1];
    ensures going: !const_hex_has_failed(decoder);
    ensures position: const_hex_position(decoder) ==
        \min(\old(const_hex_position(decoder)) + length, SIZE_MAX);
    ensures pending: const_hex_has_pending(decoder) <==> (length - start + pending) % 2 == 1;
    ensures last: const_hex_has_pending(decoder) ==> const_hex_character(decoder) ==
        (length > 0 ? text[length - 1] : \old(const_hex_character(decoder)));
    ensures state: \old(const_hex_is_state(decoder) && !const_hex_has_failed(decoder)) ==>
        const_hex_is_state(decoder); */
static void advance_past(struct const_hex_decoder *decoder, const char *text, size_t length,
                         size_t start, bool pending) {
  size_t digits = length - start;
  unsigned char last = (unsigned char)(decoder->state[1] % 256);
  bool is_odd = digits % 2 != pending;
  if (digits > 0) {
    last = (unsigned char)text[length - 1];
  }
  /*@ assert is_odd && length > 0 ==> last == text[length - 1]; */
  advance(decoder, length, is_odd ? PENDING : EVEN, last);
}

/* Decodes a chunk's digits to `count` bytes, and advances the decoder past it or to a failure.
 * Returns the position of the first invalid character, or the length. */
/*@ requires \valid(decoder) && \valid_read(text + (0 .. length - 1));
    requires \valid(bytes + (0 .. count - 1));
    requires \separated(decoder, text + (0 .. length - 1), bytes + (0 .. count - 1));
    requires start == const_hex_chunk_start(decoder, text, length);
    requires pending == const_hex_chunk_pending(decoder, text, length);
    requires count == (length - start + pending) / 2 && !const_hex_has_failed(decoder);
    assigns decoder->state[0 .. 1], bytes[0 .. count - 1];
    ensures decoded: \old(const_hex_is_state(decoder)) ==> const_hex_chunk_decoded(bytes,
        (\result - start + pending) / 2, text, start, pending, \old(const_hex_character(decoder)));
    ensures unchanged: const_hex_unchanged{Pre, Post}(bytes, (\result - start + pending) / 2, count);
    ensures state: \old(const_hex_is_state(decoder)) ==> const_hex_is_state(decoder);
    ensures position: const_hex_position(decoder) ==
        \min(\old(const_hex_position(decoder)) + \result, SIZE_MAX);
    ensures end: \result == length && const_hex_digits(text, start, length) ||
        const_hex_invalid(text, start, length, \result);
    ensures failed: \result < length ==> const_hex_has_failed(decoder) &&
        const_hex_character(decoder) == (unsigned char)text[\result];
    ensures going: \result == length ==> !const_hex_has_failed(decoder);
    ensures pending: \result == length ==>
        (const_hex_has_pending(decoder) <==> (length - start + pending) % 2 == 1);
    ensures last: \result == length && const_hex_has_pending(decoder) ==> const_hex_character(decoder) ==
        (length > 0 ? text[length - 1] : \old(const_hex_character(decoder))); */
static size_t decode_chunk(struct const_hex_decoder *decoder, const char *text, size_t length,
                           size_t start, unsigned char *bytes, size_t count, bool pending) {
  unsigned high_digit = (unsigned)(decoder->state[1] % 256);
  size_t end = decode_digits(text, start, length, bytes, count, pending, high_digit);
  if (end < length) {
    advance(decoder, end, FAILED, (unsigned char)text[end]);
  } else {
    advance_past(decoder, text, length, start, pending);
  }
  return end;
}

/* Fails with the invalid character that the decoder has stored. */
/*@ requires \valid_read(decoder);
    requires error == \null || \valid(error);
    requires \separated(decoder, error);
    assigns *error;
    ensures \result == \false;
    ensures const_hex_is_error(error, CONST_HEX_INVALID_CHARACTER,
        const_hex_character(decoder), const_hex_position(decoder)); */
static bool fail_again(const struct const_hex_decoder *decoder, struct const_hex_error *error) {
  return fail(error, CONST_HEX_INVALID_CHARACTER, decoder->state[1] % 256, decoder->state[0]);
}

bool const_hex_decoder_update(struct const_hex_decoder *decoder, const char *text,
                              size_t text_length, void *bytes, size_t bytes_size, size_t *written,
                              struct const_hex_error *error) {
  size_t status = PUBLIC(decoder->state[1] / 256);
  size_t start = chunk_start(decoder, text, text_length);
  bool pending = continues_pair(decoder, start);
  size_t count = count_pairs(text_length - start, pending);
  /*@ assert pending == const_hex_chunk_pending(decoder, text, text_length); */
  *written = 0;
  if (status > PENDING) {
    return fail_again(decoder, error);
  }
  if (count > bytes_size) {
    return fail(error, CONST_HEX_INVALID_LENGTH, 0, 0);
  }
  size_t end =
      decode_chunk(decoder, text, text_length, start, (unsigned char *)bytes, count, pending);
  /*@ assert unchanged: const_hex_unchanged{Pre, Here}(
        (unsigned char *)bytes, (end - start + pending) / 2, bytes_size); */
  if (end < text_length) {
    /*@ assert partial: \at(const_hex_is_state(decoder), Pre) ==> const_hex_chunk_partial{Pre, Here}(
          (unsigned char *)bytes, bytes_size, text, start, pending,
          \at(const_hex_character(decoder), Pre), end); */
    return fail_again(decoder, error);
  }
  *written = count;
  return true;
}

bool const_hex_decoder_finish(const struct const_hex_decoder *decoder,
                              struct const_hex_error *error) {
  size_t status = PUBLIC(decoder->state[1] / 256);
  if (status > PENDING) {
    return fail_again(decoder, error);
  }
  if (status == PENDING) {
    return fail(error, CONST_HEX_ODD_LENGTH, 0, 0);
  }
  return true;
}

/* ---- Version ---- */

uint32_t const_hex_version(void) { return CONST_HEX_VERSION; }
