/* The functions of const_hex.h on x86-64 Windows, for gcc and clang: wrappers of the machine code, which has the System V
 * ABI of other systems. */
#include "const_hex.h"

#define DEFINE_WRAPPER(type, name, parameters, arguments)                                          \
  __attribute__((sysv_abi)) type sysv_const_hex_##name parameters;                                 \
  type const_hex_##name parameters { return sysv_const_hex_##name arguments; }

DEFINE_WRAPPER(size_t, encoded_size, (size_t bytes_length, unsigned flags), (bytes_length, flags))
DEFINE_WRAPPER(bool, encode,
               (const void *bytes, size_t bytes_length, char *text, size_t text_size,
                unsigned flags),
               (bytes, bytes_length, text, text_size, flags))
DEFINE_WRAPPER(bool, decode,
               (const char *text, size_t text_length, void *bytes, size_t bytes_size,
                size_t *written, struct const_hex_error *error),
               (text, text_length, bytes, bytes_size, written, error))
DEFINE_WRAPPER(bool, decode_exact,
               (const char *text, size_t text_length, void *bytes, size_t bytes_length,
                struct const_hex_error *error),
               (text, text_length, bytes, bytes_length, error))
DEFINE_WRAPPER(bool, decoder_update,
               (struct const_hex_decoder * decoder, const char *text, size_t text_length,
                void *bytes, size_t bytes_size, size_t *written, struct const_hex_error *error),
               (decoder, text, text_length, bytes, bytes_size, written, error))
DEFINE_WRAPPER(bool, decoder_finish,
               (const struct const_hex_decoder *decoder, struct const_hex_error *error),
               (decoder, error))
DEFINE_WRAPPER(bool, check, (const char *text, size_t text_length, struct const_hex_error *error),
               (text, text_length, error))
DEFINE_WRAPPER(bool, check_raw, (const char *text, size_t text_length), (text, text_length))
DEFINE_WRAPPER(size_t, error_message,
               (const struct const_hex_error *error, char *message, size_t message_size),
               (error, message, message_size))
DEFINE_WRAPPER(uint32_t, version, (void), ())
