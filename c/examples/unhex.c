/*
 * Decodes hexadecimal text of any length, in chunks of 64 KiB. A newline at its end is allowed.
 *
 *     unhex < FILE
 *
 * The status is 1 if the text is invalid, and 2 if a read or a write failed. Bytes before the error
 * may already have been written.
 */
#include "const_hex.h"
#include <stdio.h>
#ifdef _WIN32
#include <fcntl.h>
#include <io.h>
#endif

enum { CHUNK = 65536 };

/* Decodes a chunk, and writes the new bytes. The end of main tests whether a write failed. */
static bool decode(struct const_hex_decoder *decoder, const char *text, size_t length,
                   struct const_hex_error *error) {
  static unsigned char bytes[(CHUNK + 1) / 2];
  size_t written;
  if (!const_hex_decoder_update(decoder, text, length, bytes, sizeof bytes, &written, error)) {
    return false;
  }
  fwrite(bytes, 1, written, stdout);
  return true;
}

/* Decodes the input. Returns false if it is invalid. */
static bool decode_input(struct const_hex_error *error) {
  static char text[CHUNK];
  struct const_hex_decoder decoder = {{0}};
  bool newline = false;
  size_t length;
  while ((length = fread(text, 1, sizeof text, stdin)) > 0) {
    /* A newline is a part of the text if anything follows it. */
    if (newline && !decode(&decoder, "\n", 1, error)) {
      return false;
    }
    newline = text[length - 1] == '\n';
    if (!decode(&decoder, text, newline ? length - 1 : length, error)) {
      return false;
    }
  }
  return ferror(stdin) != 0 || const_hex_decoder_finish(&decoder, error);
}

int main(void) {
  struct const_hex_error error;
#ifdef _WIN32
  /* In text mode the system would write two bytes for each newline. */
  _setmode(_fileno(stdin), _O_BINARY);
  _setmode(_fileno(stdout), _O_BINARY);
#endif
  if (!decode_input(&error)) {
    char message[CONST_HEX_MESSAGE_SIZE];
    const_hex_error_message(&error, message, sizeof message);
    fprintf(stderr, "unhex: %s\n", message);
    return 1;
  }
  if (ferror(stdin) != 0) {
    fputs("unhex: the input cannot be read\n", stderr);
    return 2;
  }
  if (fflush(stdout) != 0 || ferror(stdout) != 0) {
    fputs("unhex: the output cannot be written\n", stderr);
    return 2;
  }
  return 0;
}
