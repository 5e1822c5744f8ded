// Made by rust/erase from crates/const_hex/src/error.rt. Do not edit.
//! Why a text cannot be decoded, or a length does not fit.

use crate::std_shim::prelude::*;
use crate::std_shim::{error, fmt};

/// Why a text cannot be decoded, or a length does not fit.
///
/// These are checked in this order: whether the length is odd, then the length that a sized call needs,
/// then the characters.
#[derive(Clone, Copy, PartialEq, Eq, Debug)]
pub enum FromHexError {
    /// The text, its prefix included, has an odd number of bytes.
    OddLength,
    /// A length does not fit. To decode, the text without its prefix needs two digits for each byte
    /// that is wanted. To encode, the output needs the length of the text.
    InvalidStringLength,
    /// A byte is not a digit. This is the first such byte.
    InvalidHexCharacter {
        /// The character whose code point is the byte. A byte above 127 becomes U+0080 to U+00FF.
        c: char,
        /// The byte's position, counted from 0 at the start of the whole text, prefix included.
        index: usize,
    },
}

impl fmt::Display for FromHexError {
    #[inline]
    fn fmt<'w>(&self, f: &mut fmt::Formatter<'w>) -> fmt::Result {
        match *self {
            FromHexError::OddLength => f.write_str("odd number of digits"),
            FromHexError::InvalidStringLength => f.write_str("invalid string length"),
            FromHexError::InvalidHexCharacter { c, index } => {
                write!(f, "invalid character {c:?} at position {index}")
            }
        }
    }
}

impl error::Error for FromHexError {}
