// Made by rust/erase from crates/const_hex_arch/src/arch/blocks.rt. Do not edit.
//! Blocks: what is encoded, checked or decoded at once.
//!
//! `V` has the `N` lanes of a block.

use crate::std_shim::prelude::*;
use crate::proved::arch::lanes::{self, LaneOps};
use crate::std_shim::simd::prelude::*;

/// Fills the output with two digits for each byte of a block.
#[inline(always)]
pub(crate) fn fill_block<const N: usize, V: LaneOps<N>>(
    bytes: &[u8],
    upper: bool,
    output: &mut [u8],
) {
    V::write_digits(Simd::from_slice(bytes), upper, output);
}

/// Whether every byte of a block is a digit.
#[inline(always)]
pub(crate) fn check_block<const N: usize, V: LaneOps<N>>(text: &[u8]) -> bool {
    lanes::are_digits::<N, V>(Simd::from_slice(text))
}

/// As `check_block`, for the text of two blocks, by one test.
// Not by `lanes::are_all_digits`, which would make the proof of `decode_block` longer.
#[inline(always)]
pub(crate) fn check_two_blocks<const N: usize, V: LaneOps<N>>(text: &[u8]) -> bool {
    V::are_clear(error_bits_of_two_blocks::<N, V>(text))
}

/// As `check_block`, for the text of four blocks, by one test.
#[inline(always)]
pub(crate) fn check_four_blocks<const N: usize, V: LaneOps<N>>(text: &[u8]) -> bool {
    let (front, back) = text.split_at(2 * N);
    V::are_clear(error_bits_of_two_blocks::<N, V>(front) | error_bits_of_two_blocks::<N, V>(back))
}

/// Joined error bits of the text of two blocks. They are clear if and only if each byte is a digit.
#[inline(always)]
fn error_bits_of_two_blocks<const N: usize, V: LaneOps<N>>(text: &[u8]) -> Simd<u8, N> {
    lanes::joint_error_bits::<N, V>(Simd::from_slice(text), Simd::from_slice(&text[N..]))
}

/// Decodes the text of a block into the output and returns true. If some byte is not a digit,
/// returns false, and the output is unchanged.
#[inline(always)]
pub(crate) fn decode_block<const N: usize, V: LaneOps<N>>(text: &[u8], output: &mut [u8]) -> bool {
    let are_digits = check_two_blocks::<N, V>(text);
    if are_digits {
        decode_vector::<N, V>(text).copy_to_slice(output);
    }
    are_digits
}

/// As `decode_block`, for the text of two blocks, by one test.
#[inline(always)]
pub(crate) fn decode_two_blocks<const N: usize, V: LaneOps<N>>(
    text: &[u8],
    output: &mut [u8],
) -> bool {
    let are_digits = check_four_blocks::<N, V>(text);
    if are_digits {
        let (text, next) = text.split_at(2 * N);
        let first = decode_vector::<N, V>(text);
        let second = decode_vector::<N, V>(next);
        let (front, back) = output.split_at_mut(N);
        first.copy_to_slice(front);
        second.copy_to_slice(back);
    }
    are_digits
}

/// Decodes the digits of a block.
// The test has already computed these values for the error bits. The compiler merges both computations.
#[inline(always)]
pub(crate) fn decode_vector<const N: usize, V: LaneOps<N>>(text: &[u8]) -> Simd<u8, N> {
    lanes::decode::<N, V>(Simd::from_slice(text), Simd::from_slice(&text[N..]))
}

/// Decodes the digits of a block into the output.
#[inline(always)]
pub(crate) fn decode_unchecked_block<const N: usize, V: LaneOps<N>>(text: &[u8], output: &mut [u8]) {
    let first = Simd::from_slice(text);
    lanes::decode_unchecked::<N, V>(first, Simd::from_slice(&text[N..])).copy_to_slice(output);
}
