/*
 * One call, MISUSE: CMakeLists.txt has calls of which the compiler has to warn, and how.
 */
#include "const_hex.h"

int main(void) {
  char text[10] = "6b";
  unsigned char bytes[4] = {0};
  size_t written = 0;
  struct const_hex_error error = {0, 0, 0};
  struct const_hex_decoder decoder = {{0, 0}};
  bool result = const_hex_decode(text, 2, bytes, sizeof bytes, &written, NULL);
  MISUSE;
  return (int)decoder.state[0] + (int)error.kind + (int)written + result;
}
