/*
 * The table of test vectors of crates/const_hex_vectors, in buffers next to guard pages. TABLE is its file.
 */
#include "common.h"
#include <ctype.h>

/* How many bytes a line of the file may have, and how many its cells stand for. */
enum { MAX_LINE = 1 << 16, MAX_CELL = 1 << 21 };

/* A line of the table: the operation, its number if it has one, the input, and the result: bytes or an error. */
struct line {
  char *operation;
  size_t number, length, result_length;
  char input[MAX_CELL], result[MAX_CELL];
  struct const_hex_error error;
};

/* Reads a cell, in which "" is nothing and \xHH a byte. Returns the length. */
static size_t read_cell(const char *cell, char *bytes) {
  size_t length = 0;
  for (; strcmp(cell, "\"\"") != 0 && *cell != 0; cell += *cell == '\\' ? 4 : 1) {
    unsigned byte = (unsigned char)*cell;
    sscanf(cell, "\\x%2x", &byte);
    bytes[length++] = (char)byte;
  }
  return length;
}

/* Repeats the first `length` bytes of a buffer. Returns the length of all. */
static size_t repeat(char *bytes, size_t length, size_t times) {
  for (size_t turn = 1; turn < times; turn++) {
    memcpy(bytes + turn * length, bytes, length);
  }
  return times * length;
}

/* Stands for all kinds of errors that only other languages have. */
#define OTHER_ERROR 4

/* The error that a cell shows, or no kind. */
static struct const_hex_error error_of(const char *cell) {
  static const char *const names[] = {"", "!OddLength", "!InvalidStringLength",
                                      "!InvalidHexCharacter"};
  struct const_hex_error error = {*cell == '!' ? OTHER_ERROR : 0, 0, 0};
  for (uint32_t kind = 1; kind < OTHER_ERROR; kind++) {
    if (strncmp(cell, names[kind], strlen(names[kind])) == 0) {
      error.kind = kind;
    }
  }
  sscanf(cell, "!InvalidHexCharacter 0x%" SCNx32 " %zu", &error.byte, &error.index);
  return error;
}

/* Reads the next line that is neither empty nor a comment. */
static bool read_line(FILE *file, struct line *line) {
  static char text[MAX_LINE];
  while (fgets(text, MAX_LINE, file) != NULL) {
    char *operation = strtok(text, "\t\n");
    char *input = strtok(NULL, "\t\n");
    char *result = strtok(NULL, "\t\n");
    if (operation == NULL || operation[0] == '#') {
      continue;
    }
    line->operation = strtok(operation, " ");
    char *number = strtok(NULL, " ");
    line->number = number == NULL ? 0 : strtoul(number, NULL, 10);
    line->error = error_of(result);
    size_t times = strstr(line->operation, "-times") == NULL ? 1 : line->number;
    line->length = repeat(line->input, read_cell(input, line->input), times);
    line->result_length = repeat(line->result, read_cell(result, line->result), times);
    return true;
  }
  return false;
}

/* The length of the prefix of a line's text, or 0. */
static size_t prefix_length(const struct line *line) {
  const char *text = line->input;
  return line->length >= 2 && text[0] == '0' && (text[1] == 'x' || text[1] == 'X') ? 2 : 0;
}

/* How many bytes a decoder has written after the first `length` characters. */
static size_t count_before(const struct line *line, size_t length) {
  size_t prefix = prefix_length(line);
  return length < prefix ? 0 : (length - prefix) / 2;
}

/* What a function that decodes has returned and written, and the buffer for it. */
struct output {
  bool result;
  size_t written, size;
  char *bytes;
  struct const_hex_error error;
};

/* The output before a call. */
static struct output new_output(size_t size) {
  struct output output = {false, UNSET_COUNT, size, canary_buffer(areas.decoded, size), UNSET};
  return output;
}

/* Compares the result for the characters from one position to another: their bytes, or the expected error. After an
 * invalid character the bytes before it may have been written. */
static void compare(const struct line *line, struct output output, size_t from, size_t to,
                    struct const_hex_error expected, const char *what) {
  size_t first = count_before(line, from);
  size_t written = 0;
  size_t changed = 0;
  if (expected.kind == 0) {
    written = changed = count_before(line, to) - first;
  } else if (expected.kind == CONST_HEX_INVALID_CHARACTER && expected.index > from) {
    changed = min_size(count_before(line, expected.index) - first, output.size);
  }
  const char *bytes = line->error.kind == 0 ? line->result + first : output.bytes;
  expect(has_outcome(output.result, output.error, expected) && output.written == written &&
             memcmp(output.bytes, bytes, written) == 0 &&
             is_rest_unchanged(areas.decoded, output.size, changed),
         what, from, to);
}

/* Decodes the text into a buffer of this size, which has to be the number of bytes. */
static void decode_exact(const struct line *line, const char *text, size_t size,
                         struct const_hex_error expected) {
  struct output output = new_output(size);
  output.result = const_hex_decode_exact(text, line->length, output.bytes, size, &output.error);
  output.written = output.result ? size : 0;
  compare(line, output, 0, line->length, expected, "decode_exact");
}

/* The same by both functions. For const_hex_decode the size has to suffice. */
static void decode(const struct line *line, const char *text, size_t size) {
  static const struct const_hex_error no_space = {CONST_HEX_INVALID_LENGTH, 0, 0};
  size_t length = line->length;
  size_t count = count_before(line, length);
  bool is_odd = line->error.kind == CONST_HEX_ODD_LENGTH;
  struct output output = new_output(size);
  output.result =
      const_hex_decode(text, length, output.bytes, size, &output.written, &output.error);
  compare(line, output, 0, length, is_odd || size >= count ? line->error : no_space, "decode");
  decode_exact(line, text, size, is_odd || size == count ? line->error : no_space);
}

/* Decodes a chunk into a buffer of this size. */
static void update(const struct line *line, struct const_hex_decoder *decoder, size_t from,
                   size_t to, size_t size, struct const_hex_error expected) {
  const char *chunk = memcpy(buffer_start(areas.text, to - from), line->input + from, to - from);
  struct output output = new_output(size);
  output.result = const_hex_decoder_update(decoder, chunk, to - from, output.bytes, size,
                                           &output.written, &output.error);
  compare(line, output, from, to, expected, "decoder_update");
}

/* Decodes the text in two chunks, each first into a buffer that is too small, unless there has been an error, and then
   into one with a byte to spare, or two. */
static void decode_chunks(const struct line *line, size_t cut) {
  static const struct const_hex_error none = {0, 0, 0}, no_space = {CONST_HEX_INVALID_LENGTH, 0, 0};
  struct const_hex_decoder decoder = {{0, 0}}, old;
  struct const_hex_error expected = none, error = UNSET;
  size_t ends[] = {0, cut, line->length};
  for (size_t number = 1; number <= 2; number++) {
    size_t from = ends[number - 1];
    size_t to = ends[number];
    size_t count = count_before(line, to) - count_before(line, from);
    old = decoder;
    if (count > 0 && expected.kind == 0) {
      update(line, &decoder, from, to, count - 1, no_space);
      expect(memcmp(&decoder, &old, sizeof old) == 0, "an unchanged decoder", from, to);
    }
    if (line->error.kind == CONST_HEX_INVALID_CHARACTER && line->error.index < to) {
      expected = line->error;
    }
    size_t spare = number;
    update(line, &decoder, from, to, count + spare, expected);
  }
  old = decoder;
  bool result = const_hex_decoder_finish(&decoder, &error);
  expect(has_outcome(result, error, line->error), "decoder_finish", line->length, cut);
  expect(memcmp(&decoder, &old, sizeof old) == 0, "an unchanged decoder", line->length, cut);
}

/* ---- The tests of each kind of line ---- */

static void read_digits(const struct line *line) {
  bool is_accepted = const_hex_check_raw(line->input, line->length);
  expect(is_accepted == (line->result[0] == 't'), "check_raw", line->length, 0);
}

static void read_chunks(const struct line *line) {
  for (size_t cut = 0; cut <= line->length; cut += line->length < 10000 ? 1 : 100003) {
    decode_chunks(line, cut);
  }
}

/* Checks and decodes a text, whole and in chunks. */
static void read_text(const struct line *line) {
  size_t length = line->length;
  size_t count = count_before(line, length);
  const char *text = memcpy(buffer_start(areas.text, length), line->input, length);
  struct const_hex_error error = UNSET;
  bool result = const_hex_check(text, length, &error);
  expect(has_outcome(result, error, line->error), "check", length, 0);
  for (size_t size = count > 0 ? count - 1 : 0; size <= count + 2; size++) {
    decode(line, text, size);
  }
  /* With both errors, a decoder of chunks reports the invalid character, and the others the odd length. */
  if (line->error.kind != CONST_HEX_ODD_LENGTH || const_hex_check_raw(line->input, length)) {
    read_chunks(line);
  }
}

static void read_into(const struct line *line) {
  decode_exact(line, line->input, line->number, line->error);
}

/* Whether each byte may stand at each index. */
static void each_byte(const struct line *line) {
  static char text[MAX_LINE];
  for (size_t number = 0; number < 256 * line->length; number++) {
    size_t index = number / 256;
    char byte = (char)(number % 256);
    memcpy(text, line->input, line->length);
    text[index] = byte;
    bool is_digit = memchr(line->result, byte, line->result_length) != NULL;
    expect(const_hex_check_raw(text, line->length) == is_digit, "check_raw", index, number % 256);
  }
}

/* Writes the text of a line with what the flags ask for. Returns the size. */
static size_t expected_text(const struct line *line, unsigned flags, char *text) {
  size_t prefix = flags & CONST_HEX_PREFIX ? 2 : 0;
  size_t size = prefix + line->result_length;
  memcpy(text, "0x", prefix);
  for (size_t index = 0; index < line->result_length; index++) {
    char digit = line->result[index];
    text[prefix + index] = (char)(flags & CONST_HEX_UPPER ? toupper(digit) : digit);
  }
  text[size] = 0;
  return flags & CONST_HEX_NO_NUL ? size : size + 1;
}

/* Encodes with all flags, into buffers from one character too small to two too large. */
static void write_text(const struct line *line) {
  static char expected[AREA];
  for (unsigned flags = 0; flags < 8; flags++) {
    size_t count = line->length;
    size_t size = expected_text(line, flags, expected);
    size_t empty_size = flags & CONST_HEX_NO_NUL ? 0 : 1; /* of the empty string, after a failure */
    const void *bytes = memcpy(buffer_start(areas.bytes, count), line->input, count);
    expect(const_hex_encoded_size(count, flags) == size, "encoded_size", count, flags);
    for (size_t text_size = size > 0 ? size - 1 : 0; text_size <= size + 2; text_size++) {
      char *text = canary_buffer(areas.text, text_size);
      bool fits = const_hex_encode(bytes, count, text, text_size, flags);
      size_t written = fits ? size : min_size(empty_size, text_size);
      expect(fits == (text_size >= size) && memcmp(text, fits ? expected : "", written) == 0 &&
                 is_rest_unchanged(areas.text, text_size, written),
             "encode", count, flags);
    }
  }
}

static void message(const struct line *line) {
  struct const_hex_error error = UNSET;
  char text[CONST_HEX_MESSAGE_SIZE];
  bool result = line->number > 0 ? const_hex_decode_exact(line->input, line->length, areas.decoded,
                                                          line->number, &error)
                                 : const_hex_check(line->input, line->length, &error);
  size_t length = const_hex_error_message(&error, text, sizeof text);
  expect(!result && length == line->result_length && memcmp(text, line->result, length) == 0,
         "error_message", line->length, length);
}

static const struct {
  const char *name;
  void (*run)(const struct line *line);
} OPERATIONS[] = {
    {"read", read_text},     {"read-times", read_text}, {"read-into", read_into},
    {"digits", read_digits}, {"each-byte", each_byte},  {"read-chunks", read_chunks},
    {"write", write_text},   {"message", message},      {"write-times", write_text},
};

/* Other lines are for what this library does not have: JSON, sinks, the functions of a kernel, and outputs that have to
 * be full. Returns whether the library has a function for the line. */
static bool run_line(const struct line *line) {
  for (size_t which = 0; which < sizeof OPERATIONS / sizeof *OPERATIONS; which++) {
    if (strcmp(line->operation, OPERATIONS[which].name) == 0) {
      OPERATIONS[which].run(line);
      return true;
    }
  }
  return false;
}

static void test(void) {
  static struct line line;
  FILE *file = fopen(TABLE, "r");
  size_t run = 0;
  while (file != NULL && read_line(file, &line)) {
    run += run_line(&line);
  }
  expect(run > 1000 && feof(file) && fclose(file) == 0, "the whole table", run, 0);
}
