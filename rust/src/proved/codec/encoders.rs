// Made by rust/erase from crates/const_hex/src/codec/encoders.rt. Do not edit.
//! Encoding bytes as text in a slice.

use crate::std_shim::prelude::*;
use crate::proved::error::FromHexError;
use crate::proved::{FixedKernel, Kernel, ascii_text, fill_text, text_length};

/// Fills the output with the text, if it has exactly two bytes for each byte of the input, and
/// returns it.
#[inline(always)]
fn encode_into<'a>(input: &[u8], upper: bool, output: &'a mut [u8]) -> &'a mut [u8] {
    if output.len() == 2 * input.len() {
        fill_text::<FixedKernel>(input, false, upper, output);
    }
    output
}

/// The output as text, if it has exactly two bytes for each byte of the input.
#[inline(always)]
fn encoded_text<'a>(input: &[u8], output: &'a [u8]) -> Result<&'a str, FromHexError> {
    if output.len() == 2 * input.len() {
        Ok(ascii_text(output))
    } else {
        Err(FromHexError::InvalidStringLength)
    }
}

/// Fills the output with the text of the input, in lowercase.
///
/// The output must have exactly two bytes for each byte of the input. Otherwise returns
/// [`FromHexError::InvalidStringLength`], and the output is unchanged. Does not allocate.
#[inline]
pub fn encode_to_slice(input: &[u8], output: &mut [u8]) -> Result<(), FromHexError> {
    encode_full_to_slice(input, false, false, output)
}

/// As [`encode_to_slice`], in uppercase. Does not allocate.
#[inline]
pub fn encode_to_slice_upper(input: &[u8], output: &mut [u8]) -> Result<(), FromHexError> {
    encode_full_to_slice(input, false, true, output)
}

/// Fills the output with the text of the input, in uppercase or lowercase, with `0x` before it if
/// `prefix` is true.
///
/// The output must have exactly two bytes for each byte of the input, and two more for a prefix.
/// Otherwise returns [`FromHexError::InvalidStringLength`], and the output is unchanged. Does not
/// allocate.
#[inline]
pub fn encode_full_to_slice(
    input: &[u8],
    prefix: bool,
    upper: bool,
    output: &mut [u8],
) -> Result<(), FromHexError> {
    encode_full_to_slice_with::<FixedKernel>(input, prefix, upper, output)
}

/// As [`encode_full_to_slice`], with a kernel of the caller's choice. Does not allocate.
#[inline]
pub fn encode_full_to_slice_with<K: Kernel>(
    input: &[u8],
    prefix: bool,
    upper: bool,
    output: &mut [u8],
) -> Result<(), FromHexError> {
    if output.len() != text_length(prefix, input.len()) {
        return Err(FromHexError::InvalidStringLength);
    }
    fill_text::<K>(input, prefix, upper, output);
    Ok(())
}

/// Fills the output with the text of the input, in lowercase, and returns it as a `&str`.
///
/// The output must have exactly two bytes for each byte of the input. Otherwise returns
/// [`FromHexError::InvalidStringLength`], and the output is unchanged. Does not allocate.
#[inline]
pub fn encode_to_str<'a>(input: &[u8], output: &'a mut [u8]) -> Result<&'a str, FromHexError> {
    encoded_text(input, encode_into(input, false, output))
}

/// As [`encode_to_str`], in uppercase. Does not allocate.
#[inline]
pub fn encode_to_str_upper<'a>(input: &[u8], output: &'a mut [u8]) -> Result<&'a str, FromHexError> {
    encoded_text(input, encode_into(input, true, output))
}
