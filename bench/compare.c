// Nanoseconds of one call of the library for C, of OpenSSL 3 and of libsodium, each the least of many runs that take
// turns. bench/README.md has the commands.
#include <const_hex.h>
#include <openssl/crypto.h>
#include <sodium.h>
#include <stdio.h>
#include <string.h>
#include <time.h>

static unsigned char bytes[4096];
static char text[2 * sizeof bytes + 1];
static size_t size, count;

static bool encode(void) { return const_hex_encode(bytes, size, text, 2 * size + 1, 0); }
static bool encode_openssl(void) {
  return OPENSSL_buf2hexstr_ex(text, sizeof text, &count, bytes, (long)size, '\0');
}
static bool encode_sodium(void) { return sodium_bin2hex(text, sizeof text, bytes, size); }
static bool decode(void) { return const_hex_decode_exact(text, 2 * size, bytes, size, NULL); }
static bool decode_openssl(void) {
  return OPENSSL_hexstr2buf_ex(bytes, sizeof bytes, &count, text, '\0');
}
static bool decode_sodium(void) {
  return !sodium_hex2bin(bytes, size, text, 2 * size, NULL, &count, NULL);
}

static double nanoseconds(bool (*call)(void), int calls) {
  struct timespec start, end;
  clock_gettime(CLOCK_MONOTONIC, &start);
  for (int i = 0; i < calls; i++)
    if (!call())
      return -1;
  clock_gettime(CLOCK_MONOTONIC, &end);
  return ((double)(end.tv_sec - start.tv_sec) * 1e9 + (double)(end.tv_nsec - start.tv_nsec)) /
         calls;
}

int main(void) {
  static bool (*const calls[])(void) = {encode, encode_openssl, encode_sodium,
                                        decode, decode_openssl, decode_sodium};
  static const size_t sizes[] = {20, 32, 256, 4096};
  puts("bytes: encode by const_hex, OpenSSL, libsodium; decode by the same");
  for (size_t i = 0; i < sizeof sizes / sizeof *sizes; i++) {
    double least[6] = {1e9, 1e9, 1e9, 1e9, 1e9, 1e9};
    size = sizes[i];
    for (int run = 0; run < 20000; run++) {
      const int which = run % 6;
      const double found = nanoseconds(calls[which], (int)(40000 / size));
      if (found < least[which])
        least[which] = found;
      if (which == 2)
        encode(); // what is decoded next
    }
    printf("%zu: %.1f %.1f %.1f; %.1f %.1f %.1f\n", size, least[0], least[1], least[2], least[3],
           least[4], least[5]);
  }
  return 0;
}
