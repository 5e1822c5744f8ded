// Made by rust/erase from crates/const_hex/src/codec/checks.rt. Do not edit.
//! Checking whether a text can be decoded.

use crate::std_shim::prelude::*;
use crate::proved::codec::body::{
    find_first_invalid_from, find_invalid_character, invalid_character, strip_even, strip_prefix,
};
use crate::proved::error::FromHexError;
use crate::proved::{FixedKernel, Kernel};

/// Whether [`decode`](crate::decode) accepts a text.
///
/// Returns [`FromHexError::OddLength`] for an odd length. Otherwise returns
/// [`FromHexError::InvalidHexCharacter`] with the first byte after the prefix that is not a digit,
/// if there is one. Does not allocate.
#[inline]
pub fn check(input: &[u8]) -> Result<(), FromHexError> {
    check_with::<FixedKernel>(input)
}

/// As [`check`], with a kernel of the caller's choice. Does not allocate.
#[inline]
pub fn check_with<K: Kernel>(input: &[u8]) -> Result<(), FromHexError> {
    let body = strip_even(input)?;
    if K::check(body) {
        Ok(())
    } else {
        Err(find_invalid_character::<K>(input))
    }
}

/// Returns what [`check`](crate::check) returns, for constants. Does not allocate.
///
/// It looks each digit up in a table, so its timing may depend on the text. At run time call
/// `check`.
#[inline]
pub const fn const_check(input: &[u8]) -> Result<(), FromHexError> {
    if input.len() % 2 != 0 {
        return Err(FromHexError::OddLength);
    }
    let body = strip_prefix(input);
    let (byte, index) = find_first_invalid_from(body, 0);
    if index < body.len() {
        return Err(invalid_character(byte, index + input.len() - body.len()));
    }
    Ok(())
}

/// Whether every byte is a digit. No prefix is allowed, and the length does not matter. Does not
/// allocate.
#[inline]
pub fn check_raw(input: &[u8]) -> bool {
    FixedKernel::check(input)
}

/// Returns what [`check_raw`](crate::check_raw) returns, for constants. Does not allocate.
///
/// It looks each digit up in a table, so its timing may depend on the text. At run time call
/// `check_raw`.
#[inline]
pub const fn const_check_raw(input: &[u8]) -> bool {
    find_first_invalid_from(input, 0).1 == input.len()
}
