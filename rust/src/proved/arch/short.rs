// Made by rust/erase from crates/const_hex_arch/src/arch/short.rt. Do not edit.
//! Short inputs, by two loads: one at the start and one at the end, which may overlap. So some bytes are taken twice.
//!
//! `V` has the operations on vectors. The text of at most 8 bytes is one vector, which one shuffle fills for each `V`.

use crate::std_shim::prelude::*;
use crate::proved::arch::lanes::{self, LaneOps};
use crate::proved::arch::{blocks, lanes16};
use crate::proved::tables::is_digit;
use crate::std_shim::simd::prelude::*;

/// Fills the output with two digits for each of at most 15 bytes.
#[inline(always)]
pub(crate) fn fill(bytes: &[u8], upper: bool, output: &mut [u8]) {
    // Fewer than 4 bytes by the fewest tests, which take the greatest part of the time there.
    if bytes.len() >= 4 {
        if bytes.len() >= 8 {
            fill_overlapping::<8>(bytes, upper, output);
        } else {
            fill_overlapping::<4>(bytes, upper, output);
        }
    } else if bytes.len() == 1 {
        fill_one_vector::<1>(bytes, upper, output);
    } else if bytes.len() >= 2 {
        fill_overlapping::<2>(bytes, upper, output);
    }
}

/// Fills the output with the text of `H` to `2 * H` bytes: that of the first `H`, and that of the last `H`.
#[inline(always)]
fn fill_overlapping<const H: usize>(bytes: &[u8], upper: bool, output: &mut [u8]) {
    let start = bytes.len() - H;
    fill_one_vector::<H>(&bytes[..H], upper, &mut output[..2 * H]);
    fill_one_vector::<H>(&bytes[start..], upper, &mut output[2 * start..]);
}

/// Fills the output with the text of exactly `H` bytes, by one vector.
#[inline(always)]
fn fill_one_vector<const H: usize>(bytes: &[u8], upper: bool, output: &mut [u8]) {
    let text = lanes16::encode_8_lanes(Simd::from_slice(&load(bytes)), upper).to_array();
    output.copy_from_slice(&text[..2 * H]);
}

/// Fills the output with the text of `N` to `2 * N` bytes: that of the last `N`, and that of the first `N`.
// In this order: if the last ones came last, LLVM would share their code with `long::fill`, by a jump.
#[inline(always)]
pub(crate) fn fill_two_vectors<const N: usize, V: LaneOps<N>>(
    bytes: &[u8],
    upper: bool,
    output: &mut [u8],
) {
    let start = bytes.len() - N;
    blocks::fill_block::<N, V>(&bytes[start..], upper, &mut output[2 * start..]);
    blocks::fill_block::<N, V>(&bytes[..N], upper, &mut output[..2 * N]);
}

/// Whether every byte of a text of at most 15 bytes is a digit.
#[inline(always)]
pub(crate) fn check<V: LaneOps<16>>(text: &[u8]) -> bool {
    if text.len() >= 8 {
        check_overlapping::<8, V>(text)
    } else if text.len() >= 4 {
        check_overlapping::<4, V>(text)
    } else if text.len() >= 2 {
        check_overlapping::<2, V>(text)
    } else {
        text.is_empty() || is_digit(text[0])
    }
}

/// Whether every one of `H` to `2 * H` bytes is a digit: the first `H` and the last `H` are in one vector.
#[inline(always)]
fn check_overlapping<const H: usize, V: LaneOps<16>>(text: &[u8]) -> bool {
    lanes::are_digits::<16, V>(load_first_and_last(text, H))
}

/// Whether every one of `N` to `2 * N` bytes is a digit: one test covers the first `N` and the last `N`.
#[inline(always)]
pub(crate) fn check_two_vectors<const N: usize, V: LaneOps<N>>(text: &[u8]) -> bool {
    let first = Simd::from_slice(text);
    lanes::are_all_digits::<N, V>(first, Simd::from_slice(&text[text.len() - N..]))
}

/// Decodes a text to at most 16 bytes and returns true. If some character is invalid, returns false, and the output is
/// unchanged.
#[inline(always)]
pub(crate) fn decode<V: LaneOps<16>>(text: &[u8], output: &mut [u8]) -> bool {
    if output.len() >= 8 {
        decode_two_vectors::<16, V>(text, output)
    } else if output.len() >= 4 {
        decode_overlapping::<4, V>(text, output)
    } else if output.len() >= 2 {
        decode_overlapping::<2, V>(text, output)
    } else {
        output.is_empty() || decode_overlapping::<1, V>(text, output)
    }
}

/// As `decode`, for `H` to `2 * H` bytes: the characters of the first `H` and of the last `H` are in one vector.
#[inline(always)]
fn decode_overlapping<const H: usize, V: LaneOps<16>>(text: &[u8], output: &mut [u8]) -> bool {
    let ends = load_first_and_last(text, 2 * H);
    let are_digits = lanes::are_digits::<16, V>(ends);
    if are_digits {
        // `decode` merges two vectors into one. Here both are the same, and only the first half of the result is
        // needed.
        let bytes = lanes::decode::<16, V>(ends, ends).to_array();
        copy_first_and_last(&bytes[..2 * H], H, output);
    }
    are_digits
}

/// As `decode`, for `N / 2` to `N` bytes: a vector has the first `N` characters, and another one the last `N`.
#[inline(always)]
pub(crate) fn decode_two_vectors<const N: usize, V: LaneOps<N>>(
    text: &[u8],
    output: &mut [u8],
) -> bool {
    let are_digits = check_two_vectors::<N, V>(text);
    if are_digits {
        let first = Simd::from_slice(text);
        let last = Simd::from_slice(&text[text.len() - N..]);
        copy_first_and_last(
            &lanes::decode::<N, V>(first, last).to_array(),
            N / 2,
            output,
        );
    }
    are_digits
}

/// Puts the bytes into an array, and zeros after them.
#[inline(always)]
fn load(bytes: &[u8]) -> [u8; 8] {
    let mut lanes = [0; 8];
    lanes[..bytes.len()].copy_from_slice(bytes);
    lanes
}

/// Puts the first `count` bytes and the last `count` bytes into the first lanes, and digits into the others.
// The digits are added: if they stood in the same array, LLVM would insert them one by one.
#[inline(always)]
fn load_first_and_last<const N: usize>(bytes: &[u8], count: usize) -> Simd<u8, N> {
    let mut ends = [0; N];
    copy_first_and_last(bytes, count, &mut ends[..2 * count]);
    let mut padding = [b'0'; N];
    padding[..2 * count].copy_from_slice(&[0; N][..2 * count]);
    Simd::from_slice(&ends) + Simd::from_slice(&padding)
}

/// Copies the first `count` bytes to the start of the output, and the last `count` bytes to its end.
#[inline(always)]
fn copy_first_and_last(bytes: &[u8], count: usize, output: &mut [u8]) {
    let start = output.len() - count;
    output[..count].copy_from_slice(&bytes[..count]);
    output[start..].copy_from_slice(&bytes[bytes.len() - count..]);
}
