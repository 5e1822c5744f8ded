//! Decoding that rejects a prefix, as the crate `hex` does.
//!
//! The `x` of a prefix is an invalid character here. Otherwise each function returns what the function of its name
//! in the crate's root returns, with the same errors.
//!
//! ```
//! # use const_hex_proved::{strict, FromHexError};
//! assert_eq!(strict::decode_to_array("6b697769"), Ok(*b"kiwi"));
//! assert!(strict::check("6b697769").is_ok());
//! let error = FromHexError::InvalidHexCharacter { c: 'x', index: 1 };
//! assert_eq!(strict::check("0x6b697769"), Err(error));
//! assert_eq!(strict::decode_to_slice("0x6b697769", &mut [0; 5]), Err(error));
//! ```

use crate::proved::codec::body::strip_prefix;
use crate::FromHexError;
#[cfg(feature = "alloc")]
use alloc::vec::Vec;

pub use crate::traits::strict::FromHex;

/// Returns the text, or if it has an even length and begins with a prefix, the error that takes precedence: the wrong
/// length, unless `length_matches` says that the output has the right one, and otherwise the invalid `x` or `X`.
#[inline]
fn reject_prefix(text: &[u8], length_matches: bool) -> Result<&[u8], FromHexError> {
    if text.len() % 2 != 0 || strip_prefix(text).len() == text.len() {
        return Ok(text);
    }
    let (c, index) = (char::from(text[1]), 1);
    Err(match length_matches {
        true => FromHexError::InvalidHexCharacter { c, index },
        false => FromHexError::InvalidStringLength,
    })
}

/// Returns the bytes that text without a prefix decodes to. Allocates.
#[cfg(feature = "alloc")]
#[inline]
pub fn decode<T: AsRef<[u8]>>(data: T) -> Result<Vec<u8>, FromHexError> {
    crate::decode(reject_prefix(data.as_ref(), true)?)
}

/// Fills `out` with the bytes that text without a prefix decodes to. Does not allocate.
#[inline]
pub fn decode_to_slice<T: AsRef<[u8]>>(data: T, out: &mut [u8]) -> Result<(), FromHexError> {
    let text = data.as_ref();
    crate::decode_to_slice(reject_prefix(text, text.len() / 2 == out.len())?, out)
}

/// Returns the `N` bytes that text without a prefix decodes to. Does not allocate.
#[inline]
pub fn decode_to_array<T: AsRef<[u8]>, const N: usize>(input: T) -> Result<[u8; N], FromHexError> {
    let text = input.as_ref();
    crate::decode_to_array(reject_prefix(text, text.len() / 2 == N)?)
}

/// Returns `Ok` if the text can be decoded, and has no prefix. Does not allocate.
#[inline]
pub fn check<T: AsRef<[u8]>>(input: T) -> Result<(), FromHexError> {
    crate::check(reject_prefix(input.as_ref(), true)?)
}
