//! Encodes bytes as hexadecimal text, and decodes it again.
//!
//! The names are those of the crates `const-hex` and `hex`. The core of this crate is formally verified. The rest is
//! hand-written and tested. README.md says which part is which.
//!
//! ```
//! # #[cfg(feature = "alloc")] {
//! assert_eq!(const_hex_proved::encode("kiwi"), "6b697769");
//! assert_eq!(const_hex_proved::decode("0x6B697769"), Ok(b"kiwi".to_vec()));
//! # }
//! assert_eq!(const_hex_proved::decode_to_array("6b697769"), Ok(*b"kiwi"));
//! const KIWI: [u8; 4] = const_hex_proved::bytes_of(b"0x6b697769");
//! const _: () = assert!(const_hex_proved::const_check(b"0x6b").is_ok());
//! const _: () = assert!(!const_hex_proved::const_check_raw(b"0x6b"));
//! assert_eq!(const_hex_proved::const_decode_to_array(b"6b697769"), Ok(KIWI));
//! ```
//!
//! Text may begin with one prefix, `0x` or `0X`, except for [`check_raw`], [`const_check_raw`] and the modules
//! [`secret`] and [`strict`]. Errors are checked in this order: an odd length, a length that does not match the
//! output, an invalid character.
//!
//! Features: `alloc` adds what returns a `String` or a vector; `std` (by default) adds `alloc`, `DecodeReader`,
//! `EncodeWriter` and `std::error::Error`; `serde` adds `#[serde(with = "const_hex_proved")]`; `core-error` implements
//! `core::error::Error` without `std`, and needs Rust 1.81; `force-generic` uses no machine code.
//!
//! For keys use the module [`secret`]. No other function is claimed to be constant-time.
#![no_std]
#![cfg_attr(docsrs, feature(doc_cfg))]
#![deny(unsafe_code, unsafe_op_in_unsafe_fn)]
#![warn(missing_docs)]

#[cfg(feature = "alloc")]
extern crate alloc;
#[cfg(any(feature = "std", test))]
extern crate std;

#[allow(unsafe_code)]
mod buffer;
mod constants;
mod decoder;
mod display;
#[cfg(feature = "std")]
mod io;
// Rust before 1.86 does not have the target cygwin.
#[allow(unknown_lints, unexpected_cfgs, unsafe_code)]
mod kernel;
// The source is a library, of which this crate calls and exports a part. Its labels name loops for the proofs.
// Anything else that is unused may show that `erase` has deleted code. It is an error in the tests alone, so that a new
// lint of the compiler breaks no build of a user.
#[cfg_attr(test, deny(unused))]
#[allow(dead_code, unsafe_code, unused_imports, unused_labels)]
#[rustfmt::skip]
mod proved;
#[allow(unsafe_code)]
pub mod secret;
#[cfg(feature = "serde")]
pub mod serde;
#[allow(dead_code, unsafe_code, unused_imports)]
mod std_shim;
pub mod strict;
pub mod traits;

pub use crate::buffer::Buffer;
pub use crate::constants::{bytes_of, const_encode, decoded_length};
pub use crate::decoder::Decoder;
pub use crate::display::display;
#[cfg(feature = "std")]
pub use crate::io::{DecodeReader, EncodeWriter};
pub use crate::proved::codec::checks::{const_check, const_check_raw};
pub use crate::proved::codec::decoders::const_decode_to_array;
// For the module of the package for JavaScript.
#[doc(hidden)]
pub use crate::proved::codec::encoders::encode_full_to_slice;
pub use crate::proved::error::FromHexError;
pub use crate::proved::{HEX_CHARS_LOWER, HEX_CHARS_UPPER, HEX_DECODE_LUT, NIL};
#[cfg(feature = "serde")]
#[doc(no_inline)]
pub use crate::serde::{deserialize, serialize, serialize_upper};
#[cfg(feature = "alloc")]
pub use crate::traits::ToHexExt;
pub use crate::traits::{FromHex, ToHex};

use crate::proved::codec::body::{find_invalid_character, strip_even};
use crate::proved::codec::{checks, decoders};
#[cfg(feature = "alloc")]
use alloc::{string::String, vec::Vec};

/// Defines functions that encode, each by its signature without the bytes, and the function that it calls with the flags
/// for a prefix and for uppercase.
macro_rules! define_encoders {
    ($(
        $(#[$attribute:meta])+
        fn $name:ident($($output:ident: $type:ty)?) $(-> $result:ty)? = $call:ident($prefix:literal, $upper:literal);
    )+) => {$(
        $(#[$attribute])+
        #[inline]
        pub fn $name<T: AsRef<[u8]>>(data: T $(, $output: $type)?) $(-> $result)? {
            $call(data.as_ref(), $prefix, $upper $(, $output)?)
        }
    )+};
}

#[cfg(feature = "alloc")]
define_encoders! {
    /// Returns two lowercase digits per byte, in order. Allocates.
    ///
    /// ```
    /// # use const_hex_proved::{encode, encode_prefixed};
    /// assert_eq!(encode([1, 2, 254, 255]), "0102feff");
    /// assert_eq!(encode_prefixed([254, 255]), "0xfeff");
    /// ```
    #[must_use]
    fn encode() -> String = encode_to_string(false, false);
    /// Does the same as [`encode`] in uppercase.
    #[must_use]
    fn encode_upper() -> String = encode_to_string(false, true);
    /// Does the same as [`encode`] with `0x` before the digits.
    #[must_use]
    fn encode_prefixed() -> String = encode_to_string(true, false);
    /// Does the same as [`encode_upper`] with `0x` before the digits.
    #[must_use]
    fn encode_upper_prefixed() -> String = encode_to_string(true, true);

    /// Appends two lowercase digits per byte to a string. Allocates only if the string has too little capacity.
    ///
    /// ```
    /// # use const_hex_proved::encode_append;
    /// let mut text = String::from("kiwi = ");
    /// encode_append("kiwi", &mut text);
    /// assert_eq!(text, "kiwi = 6b697769");
    /// ```
    fn encode_append(output: &mut String) = append_to_string(false, false);
    /// Does the same as [`encode_append`] in uppercase.
    fn encode_append_upper(output: &mut String) = append_to_string(false, true);
    /// Does the same as [`encode_append`] with `0x` before the digits.
    fn encode_append_prefixed(output: &mut String) = append_to_string(true, false);
    /// Does the same as [`encode_append_upper`] with `0x` before the digits.
    fn encode_append_upper_prefixed(output: &mut String) = append_to_string(true, true);
}

define_encoders! {
    /// Fills `output` with two lowercase digits per byte. Does not allocate.
    ///
    /// Returns [`FromHexError::InvalidStringLength`], and leaves `output` unchanged, unless it has the text's length.
    ///
    /// ```
    /// # use const_hex_proved::{encode_to_slice, encode_to_slice_prefixed, encode_to_str};
    /// let mut text = [0; 8];
    /// encode_to_slice("kiwi", &mut text)?;
    /// assert_eq!(&text, b"6b697769");
    /// assert_eq!(encode_to_str("pear", &mut text)?, "70656172");
    /// let mut text = [0; 10];
    /// encode_to_slice_prefixed("kiwi", &mut text)?;
    /// assert_eq!(&text, b"0x6b697769");
    /// # Ok::<(), const_hex_proved::FromHexError>(())
    /// ```
    fn encode_to_slice(output: &mut [u8]) -> Result<(), FromHexError> = encode_full_to_slice(false, false);
    /// Does the same as [`encode_to_slice`] in uppercase, with the same error.
    fn encode_to_slice_upper(output: &mut [u8]) -> Result<(), FromHexError> = encode_full_to_slice(false, true);
    /// Does the same as [`encode_to_slice`] with `0x` before the digits, with the same error.
    fn encode_to_slice_prefixed(output: &mut [u8]) -> Result<(), FromHexError> = encode_full_to_slice(true, false);
    /// Does the same as [`encode_to_slice_upper`] with `0x` before the digits, with the same error.
    fn encode_to_slice_upper_prefixed(output: &mut [u8]) -> Result<(), FromHexError> = encode_full_to_slice(true, true);
    /// Does the same as [`encode_to_slice`], with the same error, and returns the output as a string.
    fn encode_to_str(output: &mut [u8]) -> Result<&mut str, FromHexError> = encode_full_to_str(false, false);
    /// Does the same as [`encode_to_slice_upper`], with the same error, and returns the output as a string.
    fn encode_to_str_upper(output: &mut [u8]) -> Result<&mut str, FromHexError> = encode_full_to_str(false, true);
}

/// Returns the text of bytes.
#[cfg(feature = "alloc")]
#[inline(always)]
fn encode_to_string(data: &[u8], prefix: bool, upper: bool) -> String {
    let mut text = String::new();
    append_to_string(data, prefix, upper, &mut text);
    text
}

/// Appends the text of bytes to a string.
#[cfg(feature = "alloc")]
#[allow(unsafe_code)]
#[inline]
fn append_to_string(data: &[u8], prefix: bool, upper: bool, output: &mut String) {
    // SAFETY: what is appended is ASCII: `0x`, and digits, of which this is proved.
    kernel::encode_append(data, prefix, upper, unsafe { output.as_mut_vec() });
}

/// Fills `output` with the text of bytes, and returns it as a string. No proved function does: Rattle has no `&mut str`.
#[allow(unsafe_code)]
#[inline]
fn encode_full_to_str<'a>(
    data: &[u8],
    prefix: bool,
    upper: bool,
    output: &'a mut [u8],
) -> Result<&'a mut str, FromHexError> {
    encode_full_to_slice(data, prefix, upper, output)?;
    debug_assert!(output.is_ascii());
    // SAFETY: the encoder has filled the output, and it is proved that what it writes is ASCII.
    Ok(unsafe { core::str::from_utf8_unchecked_mut(output) })
}

/// Returns the bytes that the text decodes to, or the errors of [`check`]. Allocates unless the text has an odd length
/// or no digits, even if a character is invalid.
///
/// ```
/// # use const_hex_proved::{decode, FromHexError};
/// assert_eq!(decode("6b697769"), Ok(b"kiwi".to_vec()));
/// assert_eq!(decode("6b69776"), Err(FromHexError::OddLength));
/// ```
// Not by `decode_append`, which takes up to 35 instructions more (rustc 1.95, x86-64).
#[cfg(feature = "alloc")]
#[inline(always)]
pub fn decode<T: AsRef<[u8]>>(data: T) -> Result<Vec<u8>, FromHexError> {
    let text = data.as_ref();
    let digits = strip_even(text)?;
    let mut bytes = Vec::new();
    match kernel::decode_append(digits, &mut bytes) {
        true => Ok(bytes),
        false => Err(drop_and_find_error(text, bytes)),
    }
}

/// Drops the vector that was allocated for invalid text, and returns the error.
// Outlined, so that less code is inlined for valid text.
#[cfg(feature = "alloc")]
#[cold]
fn drop_and_find_error(text: &[u8], bytes: Vec<u8>) -> FromHexError {
    drop(bytes);
    find_invalid_character::<kernel::TargetKernel>(text)
}

/// Appends the decoded bytes to a vector, and returns their number, or the errors of [`check`].
/// Allocates only if the vector has too little capacity.
///
/// After an error the vector has the same bytes as before, but bytes that were decoded before an invalid character may
/// remain in its spare capacity.
///
/// ```
/// # use const_hex_proved::decode_append;
/// let mut bytes = b"kiwi".to_vec();
/// assert_eq!(decode_append("70656172", &mut bytes), Ok(4));
/// assert_eq!(bytes, b"kiwipear");
/// ```
#[cfg(feature = "alloc")]
pub fn decode_append<T: AsRef<[u8]>>(data: T, output: &mut Vec<u8>) -> Result<usize, FromHexError> {
    let text = data.as_ref();
    let digits = strip_even(text)?;
    match kernel::decode_append(digits, output) {
        true => Ok(digits.len() / 2),
        false => Err(find_invalid_character::<kernel::TargetKernel>(text)),
    }
}

/// Fills `out` with the bytes that text decodes to. Does not allocate.
///
/// Returns [`FromHexError::OddLength`]; or else [`FromHexError::InvalidStringLength`], unless the text has two digits
/// for each byte of `out`; or else [`FromHexError::InvalidHexCharacter`]. After the last of these, `out` may already
/// contain bytes decoded before the invalid character; after the others it is unchanged.
///
/// ```
/// # use const_hex_proved::decode_to_slice;
/// let mut bytes = [0; 4];
/// decode_to_slice("6b697769", &mut bytes)?;
/// assert_eq!(&bytes, b"kiwi");
/// # Ok::<(), const_hex_proved::FromHexError>(())
/// ```
#[inline]
pub fn decode_to_slice<T: AsRef<[u8]>>(data: T, out: &mut [u8]) -> Result<(), FromHexError> {
    decoders::decode_to_slice(data.as_ref(), out)
}

/// Writes the decoded bytes to the front of `out`, and returns their number. The rest of `out` is
/// unchanged. Does not allocate.
///
/// Returns the errors of [`decode_to_slice`], but [`FromHexError::InvalidStringLength`] only if the text has more
/// than two digits for each byte of `out`.
///
/// ```
/// # use const_hex_proved::decode_to_front;
/// let mut bytes = *b"pineapple";
/// assert_eq!(decode_to_front("0x6b697769", &mut bytes), Ok(4));
/// assert_eq!(&bytes, b"kiwiapple");
/// ```
#[inline]
pub fn decode_to_front<T: AsRef<[u8]>>(data: T, out: &mut [u8]) -> Result<usize, FromHexError> {
    decoders::decode_to_front(data.as_ref(), out)
}

/// Returns the `N` bytes that text decodes to, or the errors of [`decode_to_slice`]. Does not allocate.
///
/// ```
/// # use const_hex_proved::decode_to_array;
/// assert_eq!(decode_to_array("6b697769"), Ok(*b"kiwi"));
/// ```
#[inline]
pub fn decode_to_array<T: AsRef<[u8]>, const N: usize>(input: T) -> Result<[u8; N], FromHexError> {
    let text = input.as_ref();
    let digits = strip_even(text)?;
    if digits.len() != N << 1 {
        return wrong_length();
    }
    match kernel::StackBuffer::new().decode(digits) {
        Some(bytes) => Ok(*bytes),
        None => Err(find_invalid_character::<kernel::TargetKernel>(text)),
    }
}

/// Returns the error for text of the wrong length.
// Not inlined for AArch64, where LLVM would otherwise keep the result in registers, and copy an array piecewise: 32 bytes
// with 12 instructions in place of 5 (rustc 1.96).
#[cold]
#[cfg_attr(target_arch = "aarch64", inline(never))]
#[cfg_attr(not(target_arch = "aarch64"), inline(always))]
fn wrong_length<const N: usize>() -> Result<[u8; N], FromHexError> {
    Err(FromHexError::InvalidStringLength)
}

/// Returns `Ok` if the text can be decoded, or else [`FromHexError::OddLength`] or
/// [`FromHexError::InvalidHexCharacter`]. Does not allocate.
///
/// ```
/// # use const_hex_proved::check;
/// assert!(check("0x6b").is_ok());
/// ```
#[inline]
pub fn check<T: AsRef<[u8]>>(input: T) -> Result<(), FromHexError> {
    checks::check(input.as_ref())
}

/// Returns whether every byte of the text is a digit. It has no prefix, and may have an odd length. Does not allocate.
///
/// ```
/// # use const_hex_proved::check_raw;
/// assert!(check_raw("6b6") && !check_raw("0x6b"));
/// ```
#[inline]
#[must_use]
pub fn check_raw<T: AsRef<[u8]>>(input: T) -> bool {
    checks::check_raw(input.as_ref())
}

#[cfg(doctest)]
#[doc = include_str!("../README.md")]
struct Readme;
