/*
 * const_hex: encodes bytes as hexadecimal text and decodes it again.
 *
 *     unsigned char hash[32];
 *     char text[CONST_HEX_ENCODED_SIZE(sizeof hash, CONST_HEX_PREFIX)];
 *     if (const_hex_encode(hash, sizeof hash, text, sizeof text, CONST_HEX_PREFIX)) {
 *         puts(text);
 *     }
 *
 *     struct const_hex_error error;
 *     if (!const_hex_decode_exact(text, strlen(text), hash, sizeof hash, &error)) {
 *         char message[CONST_HEX_MESSAGE_SIZE];
 *         const_hex_error_message(&error, message, sizeof message);
 *         fprintf(stderr, "not a hash: %s\n", message);
 *     }
 *
 * FUNCTIONS
 *
 *     const_hex_encode            bytes to a string
 *     const_hex_encoded_size      the buffer size that const_hex_encode needs
 *     const_hex_decode            text to bytes; the buffer may be larger than needed
 *     const_hex_decode_exact      text to a known number of bytes, such as a hash or a key
 *     const_hex_decoder_update    decodes text that arrives in chunks, from a file or a socket
 *     const_hex_decoder_finish    reports whether the chunks form a complete text
 *     const_hex_check             whether text can be decoded
 *     const_hex_check_raw         whether every character is a hexadecimal digit
 *     const_hex_error_message     turns an error into a readable message
 *     const_hex_version           the version of the library
 *
 * CONVENTIONS
 *
 *  - A function that returns bool returns true on success. If it has a parameter error, it stores the
 *    reason of a failure in *error, which is unchanged on success. Pass NULL if you do not need the reason.
 *  - Hexadecimal text is two digits per byte, in uppercase, lowercase or both. It may begin with "0x" or
 *    "0X". An empty text and a prefix alone are valid, and decode to 0 bytes. Anything else, including
 *    whitespace and a newline at the end, is an error.
 *  - Encoded text ends with a NUL terminator, unless CONST_HEX_NO_NUL is passed. Text that is decoded or
 *    checked needs none: for a string, pass strlen(text).
 *  - A parameter named ..._size is the capacity of a buffer. One named ..._length is the exact number of
 *    bytes.
 *  - The functions do not allocate memory and may be called from several threads at once.
 *
 * REQUIREMENTS
 *
 * The caller must ensure the following, which the functions cannot check. If it does not hold, the behavior
 * is undefined:
 *
 *  - A buffer or text has at least the size or length that is passed with it. It may be NULL if that is 0,
 *    and may have any alignment; an object (*written, *error, *decoder) is aligned for its type.
 *  - A buffer or object that a function writes (text, bytes, message, *written, *error, *decoder) does not
 *    overlap any other argument. In particular, text cannot be decoded in place.
 *  - written, decoder, and the error that is passed to const_hex_error_message are not NULL.
 *  - No other thread writes an argument while the function runs, and none reads what the function writes.
 *    The verified machine code has one exception: if something else changes the text meanwhile, such as a
 *    process that shares the memory, the function still returns and writes only to its own arguments, but the
 *    result is unspecified. This is not verified, but tested with one character of 200 that changes, and canaries
 *    beside the output.
 *
 * The next three sections are about the machine code as it is linked for Linux on x86-64 and AArch64. For macOS, BSD
 * and, with MinGW for x86-64, Windows it is the same source. Elsewhere the library is portable.c, whose source is
 * verified, for a signed char and an int of 32 bits, against the contracts below, which are comments in ACSL.
 * c/README.md says what holds for each.
 *
 * FORMAL VERIFICATION
 *
 * Except for c/asm/dispatch.S, the functions are written in Rattle, a dialect of Rust, and a prover has checked that
 * every function meets its contract: it is memory-safe, terminates, and returns and writes what the contract
 * says, for all inputs. The contracts are in crates/const_hex_c; this header states them in prose.
 *
 * The machine code, which the folders c/asm and rust/src/asm contain as assembly, is verified too, by the separate
 * tool in machine_code, against its own contracts, which state this header as formulas: every function, on x86-64
 * with both kernels that it may call (for SSE4.2 and for AVX2), for every length that an object can have and every
 * position of a decoder. This is a proof about the shared library as it is linked; a program that libconst_hex.a is
 * linked into can be proved in the same way. That this header says in prose what both contracts say is tested, by
 * test vectors, and not proved.
 *
 * CONSTANT TIME
 *
 * For valid input, branches and memory addresses do not depend on the bytes or digits, but only on lengths,
 * sizes, flags and pointers, on whether text has a prefix, on where its chunks are split, on the CPU, and on whether
 * an earlier call has detected its features.
 * This is verified in the machine code, on x86-64 with both kernels and on AArch64. It does not hold for
 * const_hex_error_message, nor for invalid text: the error states the position of the invalid character, and
 * timing reveals it too. How long an instruction takes is up to the CPU. No memory is wiped.
 *
 * PLATFORMS
 *
 * On Linux tested with glibc and musl on x86-64, and with glibc on AArch64, under QEMU only; for macOS assembled and
 * linked, and not run; on BSD not tried. On x86-64 the CPU must support x86-64-v2 (SSE4.2 and what came with it,
 * introduced about 2009; some CPUs lacked it until 2013): on another one a function may stop the program with an
 * illegal instruction. What encodes, checks and decodes digits has a second build for x86-64-v3 (AVX2 and what came
 * with it), which is used if the CPU supports it. The first call detects that and stores the result in one byte;
 * nothing else is kept between calls.
 *
 * A function uses at most 2,048 bytes of stack, which the tool machine_code checks (on Windows windows.c adds some
 * 200 by gcc 12, which it does not check), and calls no other library. The object files have no unwind tables: a
 * debugger or profiler that stops inside a function may not find its caller. They have no IBT, SHSTK and BTI
 * properties: a program that links them statically runs without these protections, and where a system enforces them,
 * as OpenBSD does, a call may stop the program.
 *
 * BUILDING
 *
 *     cc -std=c99 program.c portable.c -o program                               (on any processor)
 *     cc program.c $(pkg-config --cflags --libs const_hex) -o program           (the shared library)
 *     cc program.c $(pkg-config --cflags --libs const_hex) -static -o program   (libconst_hex.a)
 *
 * With CMake, use find_package(const_hex) and link const_hex::const_hex. The header is C99 and C++11.
 */
#ifndef CONST_HEX_H
#define CONST_HEX_H

#include <stdbool.h>
#include <stddef.h>
#include <stdint.h>

/* The version of this header: 10000 * major + 100 * minor + patch. */
#define CONST_HEX_VERSION 10000

/*
 * GCC and Clang warn if a result is ignored, and if NULL is passed where it is not allowed. GCC also warns
 * if it sees that a buffer is smaller than the size that is passed with it.
 */
#if defined(__has_attribute)
#if __has_attribute(warn_unused_result)
#define CONST_HEX_NODISCARD __attribute__((warn_unused_result))
#endif
#if __has_attribute(nonnull)
#define CONST_HEX_NONNULL(parameter) __attribute__((nonnull(parameter)))
#endif
#if __has_attribute(access)
#define CONST_HEX_READS(buffer, size) __attribute__((access(read_only, buffer, size)))
#define CONST_HEX_WRITES(buffer, size) __attribute__((access(write_only, buffer, size)))
#endif
#endif
#ifndef CONST_HEX_NODISCARD
#define CONST_HEX_NODISCARD
#endif
#ifndef CONST_HEX_NONNULL
#define CONST_HEX_NONNULL(parameter)
#endif
#ifndef CONST_HEX_READS
#define CONST_HEX_READS(buffer, size)
#define CONST_HEX_WRITES(buffer, size)
#endif

#ifdef __cplusplus
extern "C" {
#endif

/*
 * Contracts in ACSL, for Frama-C, stand before each function; to a compiler they are comments. These are their terms.
 */
/*@ // The digit of a value from 0 to 15, if the first letter is 'a' or 'A'.
    logic integer const_hex_digit(integer value, integer letter) = value < 10 ? '0' + value : letter + value - 10;

    // The value of a digit, or -1.
    logic integer const_hex_value(integer character) =
        '0' <= character <= '9' ? character - '0' :
        'A' <= character <= 'F' ? character - 'A' + 10 :
        'a' <= character <= 'f' ? character - 'a' + 10 : -1;

    predicate const_hex_is_digit(integer character) = const_hex_value(character) >= 0;

    // The characters from one position to another are digits.
    predicate const_hex_digits{L}(char *text, integer from, integer to) =
        \forall integer k; from <= k < to ==> const_hex_is_digit(text[k]);

    // The first character from a position on that is not a digit.
    predicate const_hex_invalid{L}(char *text, integer from, integer length, integer index) =
        from <= index < length && const_hex_digits(text, from, index) && !const_hex_is_digit(text[index]);

    // Where the digits of the text start.
    logic integer const_hex_start{L}(char *text, integer length) =
        length >= 2 && text[0] == '0' && (text[1] == 'x' || text[1] == 'X') ? 2 : 0;

    // The bytes from one position to another are decoded from the text, two characters from `start` on for each.
    predicate const_hex_decoded{L}(unsigned char *bytes, integer from, integer to, char *text, integer start) =
        \forall integer k; from <= k < to ==> bytes[k] ==
            16 * const_hex_value(text[start + 2 * k]) + const_hex_value(text[start + 2 * k + 1]);

    predicate const_hex_unchanged{Before, After}(unsigned char *bytes, integer from, integer to) =
        \forall integer k; from <= k < to ==> \at(bytes[k], After) == \at(bytes[k], Before);

    // A buffer after an invalid character: it begins with decoded bytes from before it; the rest is unchanged.
    predicate const_hex_partial{Before, After}(
        unsigned char *bytes, integer size, char *text, integer start, integer index) =
        \exists integer count; 0 <= 2 * count <= index - start &&
            const_hex_decoded{After}(bytes, 0, count, text, start) &&
            const_hex_unchanged{Before, After}(bytes, count, size);
*/

/* ---- Errors ---- */

/*
 * Error kinds, in the order in which they are checked. A decoder differs: it checks for an odd number of
 * characters at the end, and after an invalid character it only repeats its error.
 */
enum const_hex_error_kind {
  /* The text has an odd number of characters. */
  CONST_HEX_ODD_LENGTH = 1,
  /* The text decodes to more bytes than fit into the buffer, or not to the number of bytes required. */
  CONST_HEX_INVALID_LENGTH = 2,
  /* A character after the prefix is not a hexadecimal digit. */
  CONST_HEX_INVALID_CHARACTER = 3
};

/*
 * Why a function failed.
 *
 *   kind   a value of enum const_hex_error_kind
 *   byte   for CONST_HEX_INVALID_CHARACTER the value of the first invalid character, 0 to 255; otherwise 0
 *   index  for CONST_HEX_INVALID_CHARACTER its position in the text, counted from 0 and including the
 *          prefix; otherwise 0
 */
struct const_hex_error {
  uint32_t kind;
  uint32_t byte;
  size_t index;
};

/*@ predicate const_hex_is_error{L}(struct const_hex_error *error, integer kind, integer byte, integer index) =
        error != \null ==> error->kind == kind && error->byte == byte && error->index == index;
*/

/* A buffer of this size has space for every message and its NUL terminator. */
#define CONST_HEX_MESSAGE_SIZE 64

/*
 * Writes a message that describes *error, and a NUL terminator, to message. The messages are
 *
 *     odd number of digits
 *     invalid string length
 *     invalid character 'z' at position 5
 *
 * A message that does not fit is truncated, perhaps within a UTF-8 character, and still ends with a NUL.
 * CONST_HEX_MESSAGE_SIZE bytes are always enough.
 *
 * Returns the number of bytes written, without the NUL. If message_size is 0, nothing is written and the
 * result is 0. No function of this library sets kind 4, whose message is "out of memory". The message is empty for
 * any other unknown kind, and for CONST_HEX_INVALID_CHARACTER with an error->byte greater than 255; no function sets
 * these either.
 *
 *     char message[CONST_HEX_MESSAGE_SIZE];
 *     const_hex_error_message(&error, message, sizeof message);
 *     fprintf(stderr, "%s\n", message);
 *
 * A single quote, a backslash, NUL, tab, newline and carriage return are shown as '\'', '\\', '\0', '\t',
 * '\n' and '\r'. Other control characters, a no-break space (0xa0) and a soft hyphen (0xad) are shown by
 * their number, as in '\u{1b}'. Any other byte above 127 is shown as the Unicode character with that number,
 * in UTF-8.
 */
/*@ // The kind of error whose message is "out of memory".
    logic integer const_hex_out_of_memory = 4;

    // The lengths of a character with its escape sequence, of a number in decimal, and of the whole message.
    logic integer const_hex_escaped_length(integer byte) =
        byte == 0 || byte == '\t' || byte == '\n' || byte == '\r' || byte == '\'' || byte == '\\' ? 2 :
        byte < 16 ? 5 :
        byte < 32 || 127 <= byte <= 160 || byte == 173 ? 6 :
        byte < 127 ? 1 : 2;
    logic integer const_hex_decimal_length(integer n) =
        n < 10 ? 1 : n < 100 ? 2 : n < 1000 ? 3 : n < 10000 ? 4 : n < 100000 ? 5 : n < 1000000 ? 6 :
        n < 10000000 ? 7 : n < 100000000 ? 8 : n < 1000000000 ? 9 : n < 10000000000 ? 10 :
        n < 100000000000 ? 11 : n < 1000000000000 ? 12 : n < 10000000000000 ? 13 : n < 100000000000000 ? 14 :
        n < 1000000000000000 ? 15 : n < 10000000000000000 ? 16 : n < 100000000000000000 ? 17 :
        n < 1000000000000000000 ? 18 : n < 10000000000000000000 ? 19 : 20;
    logic integer const_hex_message_length{L}(struct const_hex_error *error) =
        error->kind == CONST_HEX_ODD_LENGTH ? 20 :
        error->kind == CONST_HEX_INVALID_LENGTH ? 21 :
        error->kind == CONST_HEX_INVALID_CHARACTER && error->byte < 256 ?
            33 + const_hex_escaped_length(error->byte) + const_hex_decimal_length(error->index) :
        error->kind == const_hex_out_of_memory ? 13 : 0;
*/
/*@ requires \valid_read(error);
    requires \valid(message + (0 .. message_size - 1));
    requires \separated(error, message + (0 .. message_size - 1));
    assigns message[0 .. message_size - 1];
    ensures none: message_size == 0 ==> \result == 0;
    ensures ended: message_size > 0 ==> \result < message_size && message[\result] == 0;
    ensures length: message_size > 0 ==> \result == \min(message_size - 1, const_hex_message_length(error));
    ensures rest: \forall integer k; \result < k < message_size ==> message[k] == \old(message[k]);
*/
CONST_HEX_NONNULL(1)
CONST_HEX_WRITES(2, 3)
size_t const_hex_error_message(const struct const_hex_error *error, char *message,
                               size_t message_size);

/* ---- Encoding ---- */

/* Flags for encoding; combine them with |. With 0 the text is lowercase, has no prefix, and a NUL follows. */
#define CONST_HEX_UPPER 1u  /* uppercase digits: 6B instead of 6b */
#define CONST_HEX_PREFIX 2u /* "0x" before the digits, also with CONST_HEX_UPPER */
#define CONST_HEX_NO_NUL                                                                           \
  4u /* no NUL terminator, as for a field of fixed length in a packet or a file */

/*
 * The buffer size that const_hex_encode needs, as a constant expression. Unlike const_hex_encoded_size it
 * tests neither for overflow nor for unknown flags, and its type follows that of bytes_length.
 */
#define CONST_HEX_ENCODED_SIZE(bytes_length, flags)                                                \
  (2 * (bytes_length) + (((flags)&CONST_HEX_PREFIX) ? 2 : 0) + (((flags)&CONST_HEX_NO_NUL) ? 0 : 1))

/*@ // What the flags ask for: the first letter, a prefix, a NUL, and the size of the whole text.
    logic integer const_hex_letter(integer flags) = flags % 2 == 1 ? 'A' : 'a';
    predicate const_hex_has_prefix(integer flags) = flags / 2 % 2 == 1;
    predicate const_hex_has_nul(integer flags) = flags / 4 % 2 == 0;
    logic integer const_hex_size(integer bytes_length, integer flags) =
        2 * bytes_length + flags / 2 % 2 * 2 + (1 - flags / 4 % 2);

    // The bytes from one position to another are encoded, from `start` of the text on.
    predicate const_hex_encoded{L}(
        unsigned char *bytes, integer from, integer to, char *text, integer start, integer letter) =
        \forall integer k; from <= k < to ==>
            text[start + 2 * k] == const_hex_digit(bytes[k] / 16, letter) &&
            text[start + 2 * k + 1] == const_hex_digit(bytes[k] % 16, letter);
*/

/*
 * Returns the buffer size that const_hex_encode needs for bytes_length bytes, including the NUL terminator
 * if there is one. The result SIZE_MAX is an error: that size is SIZE_MAX or greater, which no buffer has, or
 * flags has an unknown bit.
 *
 *     size_t size = const_hex_encoded_size(bytes_length, 0);
 *     char *text = malloc(size);
 *     if (text != NULL && const_hex_encode(bytes, bytes_length, text, size, 0)) ...
 */
/*@ assigns \nothing;
    ensures \result == (flags < 8 && const_hex_size(bytes_length, flags) <= SIZE_MAX
        ? const_hex_size(bytes_length, flags) : SIZE_MAX);
*/
CONST_HEX_NODISCARD
size_t const_hex_encoded_size(size_t bytes_length, unsigned flags);

/*
 * Writes the hexadecimal text of bytes and a NUL terminator to text.
 *
 *   bytes, bytes_length  the bytes to encode
 *   text, text_size      the buffer; it may be larger than needed, and the rest of it is unchanged
 *   flags                0, or any of CONST_HEX_UPPER, CONST_HEX_PREFIX and CONST_HEX_NO_NUL
 *
 * Returns true on success. Returns false if the text, with its prefix and NUL, has more than text_size bytes, or if
 * flags has an unknown bit. Then bytes is not read, so that bytes_length may be any number, and the buffer is
 * unchanged, except that its first byte is set to 0 (the empty string) if text_size is not 0 and CONST_HEX_NO_NUL
 * is not passed.
 *
 *     char text[65];
 *     if (const_hex_encode(hash, 32, text, sizeof text, 0)) ...
 *
 * To encode bytes that arrive in chunks, encode each chunk, with CONST_HEX_PREFIX for the first one only.
 * The concatenated results are the text of all bytes.
 */
/*@ requires \valid(text + (0 .. text_size - 1));
    requires flags < 8 && const_hex_size(bytes_length, flags) <= text_size ==>
        \valid_read((unsigned char *)bytes + (0 .. bytes_length - 1)) &&
        \separated((unsigned char *)bytes + (0 .. bytes_length - 1), text + (0 .. text_size - 1));
    assigns text[0 .. text_size - 1];
    behavior fits:
        assumes flags < 8 && const_hex_size(bytes_length, flags) <= text_size;
        ensures \result == \true;
        ensures prefix: const_hex_has_prefix(flags) ==> text[0] == '0' && text[1] == 'x';
        ensures digits: const_hex_encoded((unsigned char *)bytes, 0, bytes_length, text,
            flags / 2 % 2 * 2, const_hex_letter(flags));
        ensures nul: const_hex_has_nul(flags) ==> text[const_hex_size(bytes_length, flags) - 1] == 0;
        ensures rest: \forall integer k; const_hex_size(bytes_length, flags) <= k < text_size ==>
            text[k] == \old(text[k]);
    behavior fails:
        assumes !(flags < 8 && const_hex_size(bytes_length, flags) <= text_size);
        ensures \result == \false;
        ensures empty: const_hex_has_nul(flags) && text_size > 0 ==> text[0] == 0;
        ensures rest: \forall integer k; 1 - flags / 4 % 2 <= k < text_size ==>
            text[k] == \old(text[k]);
    complete behaviors;
    disjoint behaviors;
*/
CONST_HEX_NODISCARD
CONST_HEX_READS(1, 2)
CONST_HEX_WRITES(3, 4)
bool const_hex_encode(const void *bytes, size_t bytes_length, char *text, size_t text_size,
                      unsigned flags);

/* ---- Decoding ---- */

/*
 * Decodes text to bytes.
 *
 *   text, text_length  the text, with or without a prefix
 *   bytes, bytes_size  the buffer; text_length / 2 bytes are always enough
 *   written            receives the number of bytes decoded, or 0 on failure; must not be NULL
 *   error              receives the reason of a failure; may be NULL
 *
 * Returns true on success. Bytes of the buffer after the decoded ones are unchanged. Returns false on
 * failure:
 *
 *   CONST_HEX_ODD_LENGTH         bytes is unchanged
 *   CONST_HEX_INVALID_LENGTH     the text decodes to more than bytes_size bytes; bytes is unchanged
 *   CONST_HEX_INVALID_CHARACTER  the buffer may begin with decoded bytes from before the invalid character;
 *                                the rest of it is unchanged
 *
 *     unsigned char bytes[256];
 *     size_t written;
 *     if (const_hex_decode(text, strlen(text), bytes, sizeof bytes, &written, NULL)) ...
 *
 * For a value of fixed length use const_hex_decode_exact: this function accepts shorter text.
 */
/*@ requires \valid_read(text + (0 .. text_length - 1));
    requires \valid((unsigned char *)bytes + (0 .. bytes_size - 1));
    requires \valid(written);
    requires error == \null || \valid(error);
    requires \separated(text + (0 .. text_length - 1), (unsigned char *)bytes + (0 .. bytes_size - 1), written, error);
    assigns ((unsigned char *)bytes)[0 .. bytes_size - 1], *written, *error;
    behavior odd:
        assumes text_length % 2 == 1;
        ensures \result == \false && const_hex_is_error(error, CONST_HEX_ODD_LENGTH, 0, 0);
        ensures const_hex_unchanged{Pre, Post}((unsigned char *)bytes, 0, bytes_size);
        ensures *written == 0;
    behavior length:
        assumes text_length % 2 == 0 && text_length - const_hex_start(text, text_length) > 2 * bytes_size;
        ensures \result == \false && const_hex_is_error(error, CONST_HEX_INVALID_LENGTH, 0, 0);
        ensures const_hex_unchanged{Pre, Post}((unsigned char *)bytes, 0, bytes_size);
        ensures *written == 0;
    behavior character:
        assumes text_length % 2 == 0 && text_length - const_hex_start(text, text_length) <= 2 * bytes_size;
        assumes !const_hex_digits(text, const_hex_start(text, text_length), text_length);
        ensures \result == \false;
        ensures \exists integer index;
            const_hex_invalid(text, const_hex_start(text, text_length), text_length, index) &&
            const_hex_is_error(error, CONST_HEX_INVALID_CHARACTER, (unsigned char)text[index], index) &&
            const_hex_partial{Pre, Post}(
                (unsigned char *)bytes, bytes_size, text, const_hex_start(text, text_length), index);
        ensures *written == 0;
    behavior valid:
        assumes text_length % 2 == 0 && text_length - const_hex_start(text, text_length) <= 2 * bytes_size;
        assumes const_hex_digits(text, const_hex_start(text, text_length), text_length);
        ensures \result == \true;
        ensures *written == (text_length - const_hex_start(text, text_length)) / 2;
        ensures const_hex_decoded(
            (unsigned char *)bytes, 0, *written, text, const_hex_start(text, text_length));
        ensures const_hex_unchanged{Pre, Post}((unsigned char *)bytes, *written, bytes_size);
        ensures error != \null ==> *error == \old(*error);
    complete behaviors;
    disjoint behaviors;
*/
CONST_HEX_NODISCARD
CONST_HEX_NONNULL(5)
CONST_HEX_READS(1, 2)
CONST_HEX_WRITES(3, 4)
bool const_hex_decode(const char *text, size_t text_length, void *bytes, size_t bytes_size,
                      size_t *written, struct const_hex_error *error);

/*
 * Like const_hex_decode, but the text must decode to exactly bytes_length bytes: for any other even length
 * the error is CONST_HEX_INVALID_LENGTH. After CONST_HEX_INVALID_CHARACTER the buffer may begin with decoded
 * bytes from before the invalid character; after the other errors bytes is unchanged.
 *
 *     unsigned char key[32];
 *     if (!const_hex_decode_exact(text, strlen(text), key, sizeof key, &error)) ...
 */
/*@ requires \valid_read(text + (0 .. text_length - 1));
    requires \valid((unsigned char *)bytes + (0 .. bytes_length - 1));
    requires error == \null || \valid(error);
    requires \separated(text + (0 .. text_length - 1), (unsigned char *)bytes + (0 .. bytes_length - 1), error);
    assigns ((unsigned char *)bytes)[0 .. bytes_length - 1], *error;
    behavior odd:
        assumes text_length % 2 == 1;
        ensures \result == \false && const_hex_is_error(error, CONST_HEX_ODD_LENGTH, 0, 0);
        ensures const_hex_unchanged{Pre, Post}((unsigned char *)bytes, 0, bytes_length);
    behavior length:
        assumes text_length % 2 == 0 && text_length - const_hex_start(text, text_length) != 2 * bytes_length;
        ensures \result == \false && const_hex_is_error(error, CONST_HEX_INVALID_LENGTH, 0, 0);
        ensures const_hex_unchanged{Pre, Post}((unsigned char *)bytes, 0, bytes_length);
    behavior character:
        assumes text_length % 2 == 0 && text_length - const_hex_start(text, text_length) == 2 * bytes_length;
        assumes !const_hex_digits(text, const_hex_start(text, text_length), text_length);
        ensures \result == \false;
        ensures \exists integer index;
            const_hex_invalid(text, const_hex_start(text, text_length), text_length, index) &&
            const_hex_is_error(error, CONST_HEX_INVALID_CHARACTER, (unsigned char)text[index], index) &&
            const_hex_partial{Pre, Post}(
                (unsigned char *)bytes, bytes_length, text, const_hex_start(text, text_length), index);
    behavior valid:
        assumes text_length % 2 == 0 && text_length - const_hex_start(text, text_length) == 2 * bytes_length;
        assumes const_hex_digits(text, const_hex_start(text, text_length), text_length);
        ensures \result == \true;
        ensures const_hex_decoded(
            (unsigned char *)bytes, 0, bytes_length, text, const_hex_start(text, text_length));
        ensures error != \null ==> *error == \old(*error);
    complete behaviors;
    disjoint behaviors;
*/
CONST_HEX_NODISCARD
CONST_HEX_READS(1, 2)
CONST_HEX_WRITES(3, 4)
bool const_hex_decode_exact(const char *text, size_t text_length, void *bytes, size_t bytes_length,
                            struct const_hex_error *error);

/* ---- Decoding text that arrives in chunks ---- */

/*
 * The state of a decoder. Initialize it with zeros. It may be copied and needs no cleanup. Do not change
 * its contents: the functions remain memory-safe, but their results are unspecified.
 *
 *     struct const_hex_decoder decoder = {0};
 */
struct const_hex_decoder {
  size_t state[2];
};

/*@ // The state of a decoder: how many characters it has read, or SIZE_MAX if they were more; and the pending
    // digit, which is the first one of a byte. After an invalid character: its position, and the character.
    logic integer const_hex_position{L}(struct const_hex_decoder *decoder) = decoder->state[0];
    logic integer const_hex_character{L}(struct const_hex_decoder *decoder) = decoder->state[1] % 256;
    predicate const_hex_has_pending{L}(struct const_hex_decoder *decoder) = decoder->state[1] / 256 == 1;
    predicate const_hex_has_failed{L}(struct const_hex_decoder *decoder) = decoder->state[1] / 256 > 1;

    // What zeros and the two functions leave in a decoder.
    predicate const_hex_is_state{L}(struct const_hex_decoder *decoder) = const_hex_has_failed(decoder) || (
        (const_hex_has_pending(decoder) ==> const_hex_is_digit(const_hex_character(decoder))) &&
        (const_hex_position(decoder) == 0 ==> !const_hex_has_pending(decoder)) &&
        (const_hex_position(decoder) == 1 ==> const_hex_has_pending(decoder)));

    // Where the digits of a chunk start, and how many digits from before, 0 or 1, belong before them.
    logic integer const_hex_chunk_start{L}(struct const_hex_decoder *decoder, char *text, integer length) =
        const_hex_position(decoder) == 0 ? const_hex_start(text, length) :
        const_hex_position(decoder) == 1 && length >= 1 && const_hex_character(decoder) == '0' &&
            (text[0] == 'x' || text[0] == 'X') ? 1 : 0;
    logic integer const_hex_chunk_pending{L}(struct const_hex_decoder *decoder, char *text, integer length) =
        const_hex_position(decoder) > 0 && const_hex_chunk_start(decoder, text, length) == 0 &&
            decoder->state[1] / 256 == 1 ? 1 : 0;
    logic integer const_hex_chunk_digits{L}(struct const_hex_decoder *decoder, char *text, integer length) =
        length - const_hex_chunk_start(decoder, text, length) + const_hex_chunk_pending(decoder, text, length);

    // The first `count` bytes are decoded from a chunk whose digits start at `start`, after a pending digit
    // if `pending` is 1.
    predicate const_hex_chunk_decoded{L}(unsigned char *bytes, integer count, char *text, integer start,
                                         integer pending, integer character) =
        const_hex_decoded(bytes, pending, count, text, start - pending) &&
        (pending == 1 && count > 0 ==> bytes[0] == 16 * const_hex_value(character) + const_hex_value(text[start]));

    // As const_hex_partial.
    predicate const_hex_chunk_partial{Before, After}(unsigned char *bytes, integer size, char *text, integer start,
                                                     integer pending, integer character, integer index) =
        \exists integer count; 0 <= 2 * count <= index - start + pending &&
            const_hex_chunk_decoded{After}(bytes, count, text, start, pending, character) &&
            const_hex_unchanged{Before, After}(bytes, count, size);
*/

/*
 * Decodes the next chunk of the text. It may be split anywhere, even between the two digits of a byte
 * or within the prefix, and a chunk may be empty. A prefix is accepted only at the start of the whole text. A
 * byte is written when its second digit arrives.
 *
 *   decoder            the decoder
 *   text, text_length  the next chunk
 *   bytes, bytes_size  the buffer for the newly decoded bytes; (text_length + 1) / 2 bytes are always enough
 *   written            receives the number of newly decoded bytes, or 0 on failure; must not be NULL
 *   error              receives the reason of a failure; may be NULL
 *
 * Returns true on success. Bytes of the buffer after the decoded ones are unchanged. Returns false on
 * failure:
 *
 *   CONST_HEX_INVALID_LENGTH     the newly decoded bytes do not fit. decoder and bytes are unchanged: call
 *                                again with a larger buffer, or with a part of the chunk. This is checked
 *                                before the characters are
 *   CONST_HEX_INVALID_CHARACTER  index is the position in the whole text, or SIZE_MAX if it is greater.
 *                                The buffer may begin with decoded bytes from before the invalid
 *                                character; the rest of it is unchanged. Every later call with this
 *                                decoder fails with the same error
 *
 *     while ((length = fread(text, 1, sizeof text, file)) > 0) {
 *         if (!const_hex_decoder_update(&decoder, text, length, bytes, sizeof bytes, &written, &error))
 *             return false;
 *         fwrite(bytes, 1, written, stdout);
 *     }
 *     return !ferror(file) && const_hex_decoder_finish(&decoder, &error);
 */
/*@ requires \valid(decoder);
    requires \valid_read(text + (0 .. text_length - 1));
    requires \valid((unsigned char *)bytes + (0 .. bytes_size - 1));
    requires \valid(written);
    requires error == \null || \valid(error);
    requires \separated(decoder, text + (0 .. text_length - 1), (unsigned char *)bytes + (0 .. bytes_size - 1),
                        written, error);
    assigns *decoder, ((unsigned char *)bytes)[0 .. bytes_size - 1], *written, *error;
    ensures within: *written <= bytes_size && *written <= (text_length + 1) / 2;
    ensures \old(const_hex_is_state(decoder)) ==> const_hex_is_state(decoder);
    behavior again:
        assumes const_hex_has_failed(decoder);
        ensures \result == \false && *written == 0 && *decoder == \old(*decoder);
        ensures const_hex_is_error(error, CONST_HEX_INVALID_CHARACTER,
            const_hex_character(decoder), const_hex_position(decoder));
        ensures const_hex_unchanged{Pre, Post}((unsigned char *)bytes, 0, bytes_size);
    behavior length:
        assumes !const_hex_has_failed(decoder);
        assumes const_hex_chunk_digits(decoder, text, text_length) / 2 > bytes_size;
        ensures \result == \false && *written == 0 && *decoder == \old(*decoder);
        ensures const_hex_is_error(error, CONST_HEX_INVALID_LENGTH, 0, 0);
        ensures const_hex_unchanged{Pre, Post}((unsigned char *)bytes, 0, bytes_size);
    behavior character:
        assumes const_hex_is_state(decoder) && !const_hex_has_failed(decoder);
        assumes const_hex_chunk_digits(decoder, text, text_length) / 2 <= bytes_size;
        assumes !const_hex_digits(text, const_hex_chunk_start(decoder, text, text_length), text_length);
        ensures \result == \false && *written == 0 && const_hex_has_failed(decoder);
        ensures const_hex_is_error(error, CONST_HEX_INVALID_CHARACTER,
            const_hex_character(decoder), const_hex_position(decoder));
        ensures \exists integer index;
            const_hex_invalid(text, \old(const_hex_chunk_start(decoder, text, text_length)), text_length, index) &&
            const_hex_character(decoder) == (unsigned char)text[index] &&
            const_hex_position(decoder) == \min(\old(const_hex_position(decoder)) + index, SIZE_MAX) &&
            const_hex_chunk_partial{Pre, Post}((unsigned char *)bytes, bytes_size, text,
                \old(const_hex_chunk_start(decoder, text, text_length)),
                \old(const_hex_chunk_pending(decoder, text, text_length)),
                \old(const_hex_character(decoder)), index);
    behavior valid:
        assumes const_hex_is_state(decoder) && !const_hex_has_failed(decoder);
        assumes const_hex_chunk_digits(decoder, text, text_length) / 2 <= bytes_size;
        assumes const_hex_digits(text, const_hex_chunk_start(decoder, text, text_length), text_length);
        ensures \result == \true;
        ensures *written == \old(const_hex_chunk_digits(decoder, text, text_length)) / 2;
        ensures const_hex_chunk_decoded((unsigned char *)bytes, *written, text,
            \old(const_hex_chunk_start(decoder, text, text_length)),
            \old(const_hex_chunk_pending(decoder, text, text_length)), \old(const_hex_character(decoder)));
        ensures const_hex_unchanged{Pre, Post}((unsigned char *)bytes, *written, bytes_size);
        ensures !const_hex_has_failed(decoder);
        ensures const_hex_position(decoder) == \min(\old(const_hex_position(decoder)) + text_length, SIZE_MAX);
        ensures const_hex_has_pending(decoder) <==> \old(const_hex_chunk_digits(decoder, text, text_length)) % 2 == 1;
        ensures const_hex_has_pending(decoder) ==> const_hex_character(decoder) ==
            (text_length > 0 ? text[text_length - 1] : \old(const_hex_character(decoder)));
        ensures error != \null ==> *error == \old(*error);
    disjoint behaviors;
*/
CONST_HEX_NODISCARD
CONST_HEX_NONNULL(1)
CONST_HEX_NONNULL(6)
CONST_HEX_READS(2, 3)
CONST_HEX_WRITES(4, 5)
bool const_hex_decoder_update(struct const_hex_decoder *decoder, const char *text,
                              size_t text_length, void *bytes, size_t bytes_size, size_t *written,
                              struct const_hex_error *error);

/*
 * Finishes decoding. Returns true if the chunks together form a complete text. Returns false on failure:
 *
 *   CONST_HEX_INVALID_CHARACTER  const_hex_decoder_update failed with this error
 *   CONST_HEX_ODD_LENGTH         the last byte has only one digit
 *
 * The decoder is unchanged, so you can continue with another chunk.
 */
/*@ requires \valid_read(decoder);
    requires error == \null || \valid(error);
    requires \separated(decoder, error);
    assigns *error;
    behavior again:
        assumes const_hex_has_failed(decoder);
        ensures \result == \false;
        ensures const_hex_is_error(error, CONST_HEX_INVALID_CHARACTER,
            const_hex_character(decoder), const_hex_position(decoder));
    behavior odd:
        assumes const_hex_has_pending(decoder);
        ensures \result == \false && const_hex_is_error(error, CONST_HEX_ODD_LENGTH, 0, 0);
    behavior valid:
        assumes !const_hex_has_failed(decoder) && !const_hex_has_pending(decoder);
        ensures \result == \true && (error != \null ==> *error == \old(*error));
    complete behaviors;
    disjoint behaviors;
*/
CONST_HEX_NODISCARD
CONST_HEX_NONNULL(1)
bool const_hex_decoder_finish(const struct const_hex_decoder *decoder,
                              struct const_hex_error *error);

/* ---- Checking ---- */

/*
 * Returns true if text can be decoded: it has an even number of characters, and those after the prefix, if
 * there is one, are hexadecimal digits. Returns false with CONST_HEX_ODD_LENGTH or
 * CONST_HEX_INVALID_CHARACTER.
 */
/*@ requires \valid_read(text + (0 .. text_length - 1));
    requires error == \null || \valid(error);
    requires \separated(text + (0 .. text_length - 1), error);
    assigns *error;
    behavior odd:
        assumes text_length % 2 == 1;
        ensures \result == \false && const_hex_is_error(error, CONST_HEX_ODD_LENGTH, 0, 0);
    behavior character:
        assumes text_length % 2 == 0;
        assumes !const_hex_digits(text, const_hex_start(text, text_length), text_length);
        ensures \result == \false;
        ensures \exists integer index;
            const_hex_invalid(text, const_hex_start(text, text_length), text_length, index) &&
            const_hex_is_error(error, CONST_HEX_INVALID_CHARACTER, (unsigned char)text[index], index);
    behavior valid:
        assumes text_length % 2 == 0 && const_hex_digits(text, const_hex_start(text, text_length), text_length);
        ensures \result == \true && (error != \null ==> *error == \old(*error));
    complete behaviors;
    disjoint behaviors;
*/
CONST_HEX_NODISCARD
CONST_HEX_READS(1, 2)
bool const_hex_check(const char *text, size_t text_length, struct const_hex_error *error);

/*
 * Returns true if every character of text is a hexadecimal digit. A prefix is not accepted. The length may
 * be odd or 0.
 */
/*@ requires \valid_read(text + (0 .. text_length - 1));
    assigns \nothing;
    ensures \result <==> const_hex_digits(text, 0, text_length);
*/
CONST_HEX_NODISCARD
CONST_HEX_READS(1, 2)
bool const_hex_check_raw(const char *text, size_t text_length);

/* ---- Version ---- */

/* Returns the CONST_HEX_VERSION that the library was built with. */
/*@ assigns \nothing;
    ensures \result == CONST_HEX_VERSION; */
uint32_t const_hex_version(void);

#ifdef __cplusplus
}
#endif

#endif
