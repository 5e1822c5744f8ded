//! Functions for constants. They look digits up in a table, so at run time their timing may reveal the bytes.

use crate::proved::codec::body::strip_prefix;
use crate::{const_decode_to_array, Buffer, FromHexError};

/// Expands to the array of the bytes that constant text of type `&str` decodes to. The compiler decodes it, and
/// finds the length. Invalid text does not compile, and the error names the position of the first invalid character.
///
/// ```
/// # use const_hex_proved::hex;
/// const KIWI: &str = "0x6b697769";
/// assert_eq!(hex!(KIWI), *b"kiwi");
/// static FRUITS: [&[u8]; 2] = [&hex!("70656172"), &hex!("0x706c756d")];
/// assert_eq!(FRUITS, [b"pear", b"plum"]);
/// ```
///
/// ```compile_fail
/// # use const_hex_proved::hex;
/// let kiwi = hex!("0x6b6977zz"); // invalid character at position 8
/// ```
#[macro_export]
macro_rules! hex {
    ($text:expr) => {{
        // Items of a macro are not hygienic, so the name is one that the caller's expression does not use.
        const __CONST_HEX_DECODED: [u8; $crate::decoded_length($text.as_bytes())] =
            $crate::bytes_of($text.as_bytes());
        __CONST_HEX_DECODED
    }};
}

/// Returns how many bytes the text decodes to, if it is valid.
#[doc(hidden)]
#[must_use]
pub const fn decoded_length(text: &[u8]) -> usize {
    strip_prefix(text).len() / 2
}

/// Returns the `N` bytes that text decodes to, or panics if [`const_decode_to_array`] returns an error, which in a
/// constant is a compile-time error. The message names the position of an invalid character.
///
/// ```
/// # use const_hex_proved::bytes_of;
/// const KIWI: [u8; 4] = bytes_of(b"0x6b697769");
/// assert_eq!(&KIWI, b"kiwi");
/// ```
///
/// ```compile_fail
/// # use const_hex_proved::bytes_of;
/// const KIWI: [u8; 4] = bytes_of(b"0x6b6977zz");
/// ```
#[inline]
#[must_use]
#[track_caller]
// Not the proved `bytes_of`: a constant of Rust 1.63 cannot `unwrap` a result.
pub const fn bytes_of<const N: usize>(text: &[u8]) -> [u8; N] {
    match const_decode_to_array(text) {
        Ok(bytes) => bytes,
        Err(FromHexError::OddLength) => panic!("odd number of digits"),
        Err(FromHexError::InvalidStringLength) => panic!("the text has another number of digits"),
        Err(FromHexError::InvalidHexCharacter { index, .. }) => panic_at(index),
    }
}

/// Panics with a message that ends in a position. A constant cannot format a number.
// `inline`: only the few crates that call it at run time compile it.
#[cold]
#[inline]
#[track_caller]
const fn panic_at(position: usize) -> ! {
    let mut message = *b"invalid character at position                     ";
    let (mut end, mut power) = (30, 1); // where the digits of the position begin
    while position / power > 9 {
        power *= 10;
    }
    while power > 0 {
        message[end] = b'0' + (position / power % 10) as u8;
        (end, power) = (end + 1, power / 10);
    }
    let mut message: &[u8] = &message;
    while let [start @ .., b' '] = message {
        message = start;
    }
    match core::str::from_utf8(message) {
        Ok(message) => panic!("{}", message),
        Err(_) => panic!("invalid character"),
    }
}

/// Returns a [`Buffer`] with two lowercase digits per byte, after `0x` if `PREFIX` is true.
///
/// ```
/// # use const_hex_proved::{Buffer, const_encode};
/// const KIWI: Buffer<4, true> = const_encode(b"kiwi");
/// assert_eq!(KIWI.as_str(), "0x6b697769");
/// ```
#[inline]
pub const fn const_encode<const N: usize, const PREFIX: bool>(
    array: &[u8; N],
) -> Buffer<N, PREFIX> {
    Buffer::encoded(array, false)
}
