/*
 * Two tasks around hexadecimal text: a key on a line of a configuration file, and a fingerprint with colons.
 *
 *     key FILE
 *
 * The first line of FILE is "key=" and 64 digits. The program prints the key with colons, as "6B:69:...", and the
 * status is 1 if the line is not as it should be.
 */
#include "const_hex.h"
#include <stdio.h>
#include <string.h>

enum { SIZE = 32 };

/* Reads a key from a line, which may end in a newline, "\r\n" or nothing. A prefix would make the text longer, so the
 * length rejects it. */
static bool read_key(const char *line, unsigned char key[SIZE]) {
  if (strncmp(line, "key=", 4) != 0) {
    return false;
  }
  const char *text = line + 4;
  size_t length = strcspn(text, "\r\n");
  return length == 2 * SIZE && const_hex_decode_exact(text, length, key, SIZE, NULL);
}

/* Writes bytes with colons. For each byte, text has space for two digits and a colon, the last of which is a NUL. */
static bool write_fingerprint(const unsigned char *bytes, size_t length, char *text) {
  for (size_t i = 0; i < length; i++) {
    if (i > 0) {
      text[3 * i - 1] = ':';
    }
    if (!const_hex_encode(&bytes[i], 1, &text[3 * i], 3, CONST_HEX_UPPER)) {
      return false;
    }
  }
  return true;
}

/* Reads a fingerprint of this number of bytes. */
static bool read_fingerprint(const char *text, unsigned char *bytes, size_t length) {
  if (strlen(text) + 1 != 3 * length) {
    return false;
  }
  for (size_t i = 0; i < length; i++) {
    if ((i > 0 && text[3 * i - 1] != ':') ||
        !const_hex_decode_exact(&text[3 * i], 2, &bytes[i], 1, NULL)) {
      return false;
    }
  }
  return true;
}

int main(int count, char **arguments) {
  char line[128] = "";
  FILE *file = count == 2 ? fopen(arguments[1], "rb") : NULL;
  if (file != NULL) {
    if (fgets(line, sizeof line, file) == NULL) {
      line[0] = '\0';
    }
    fclose(file);
  }

  unsigned char key[SIZE], again[SIZE];
  char fingerprint[3 * SIZE];
  if (!read_key(line, key) || !write_fingerprint(key, SIZE, fingerprint) ||
      !read_fingerprint(fingerprint, again, SIZE) || memcmp(key, again, SIZE) != 0) {
    fputs("key: the file does not begin with key= and 64 digits\n", stderr);
    return 1;
  }
  puts(fingerprint);
  return 0;
}
