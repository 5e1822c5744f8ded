//! The functions of `machine_code` for secrets where there is no machine code, in branch-free arithmetic without a table:
//! no branch and no address depends on a byte. Whether all characters are digits is tested once, after the last one.
//!
//! Operations wrap, since a debug build would branch on an overflow. None is a comparison to LLVM, which could compile
//! that to a branch.

use core::slice::{from_raw_parts, from_raw_parts_mut};

/// Fills the text with the lowercase digits of the bytes.
///
/// Safety: `bytes` has `length` bytes, and `text` twice as many, which are initialized.
pub unsafe fn fill_lower(bytes: *const u8, length: usize, text: *mut u8) {
    // SAFETY: the caller promises these slices.
    unsafe {
        fill(
            from_raw_parts(bytes, length),
            b'a' - 10 - b'0',
            from_raw_parts_mut(text, length << 1),
        )
    }
}

/// As `fill_lower`, in uppercase. Safety: the same.
pub unsafe fn fill_upper(bytes: *const u8, length: usize, text: *mut u8) {
    // SAFETY: the same.
    unsafe {
        fill(
            from_raw_parts(bytes, length),
            b'A' - 10 - b'0',
            from_raw_parts_mut(text, length << 1),
        )
    }
}

/// Decodes the text to the bytes, and returns whether every character is a digit.
///
/// Safety: as for `fill_lower`.
pub unsafe fn read(text: *const u8, bytes: *mut u8, length: usize) -> bool {
    // SAFETY: the caller promises these slices.
    unsafe {
        decode(
            from_raw_parts(text, length << 1),
            from_raw_parts_mut(bytes, length),
        )
    }
}

/// Fills the text with digits. `letter_offset` is added to a letter, as if the letters followed the `9`.
// Not inlined, so that a test can tell its branches from those of its caller.
#[inline(never)]
fn fill(bytes: &[u8], letter_offset: u8, text: &mut [u8]) {
    for (byte, pair) in bytes.iter().zip(text.chunks_exact_mut(2)) {
        pair[0] = digit(byte >> 4, letter_offset);
        pair[1] = digit(byte & 15, letter_offset);
    }
}

#[inline(never)]
fn decode(text: &[u8], bytes: &mut [u8]) -> bool {
    let mut invalid = 0;
    for (byte, pair) in bytes.iter_mut().zip(text.chunks_exact(2)) {
        invalid |= sign_if_invalid(pair[0]) | sign_if_invalid(pair[1]);
        *byte = (value(pair[0]) << 4) | value(pair[1]);
    }
    invalid >> 15 == 0
}

/// The digit of a value below 16.
#[inline(always)]
fn digit(value: u8, letter_offset: u8) -> u8 {
    let is_letter = value.wrapping_add(6) >> 4;
    value
        .wrapping_add(b'0')
        .wrapping_add(letter_offset & 0u8.wrapping_sub(is_letter))
}

/// The value of a digit: its last four bits, and 9 more for a letter, which is above 63.
#[inline(always)]
fn value(digit: u8) -> u8 {
    let is_letter = digit >> 6;
    (digit & 15)
        .wrapping_add(is_letter << 3)
        .wrapping_add(is_letter)
}

/// A number whose highest bit is set if the character is not a digit.
#[inline(always)]
fn sign_if_invalid(character: u8) -> u16 {
    let decimal = u16::from(character.wrapping_sub(b'0'));
    let letter = u16::from((character | 32).wrapping_sub(b'a'));
    9u16.wrapping_sub(decimal) & 5u16.wrapping_sub(letter)
}
