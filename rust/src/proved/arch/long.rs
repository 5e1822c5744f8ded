// Made by rust/erase from crates/const_hex_arch/src/arch/long.rt. Do not edit.
//! Long inputs, block by block. The last block may overlap the one before it.
//!
//! `V` has the `N` lanes of a block.

use crate::std_shim::prelude::*;
use crate::proved::arch::lanes::LaneOps;
use crate::proved::arch::plain::Plain;
use crate::proved::arch::{Kernel, blocks};

/// Fills the output with the text of the input, which has at least one block.
#[inline(always)]
pub(crate) fn fill<const N: usize, V: LaneOps<N>>(input: &[u8], upper: bool, output: &mut [u8]) {
    let mut index = 0;
    while input.len() - index > N {
        let end = index + N;
        blocks::fill_block::<N, V>(&input[index..end], upper, &mut output[2 * index..2 * end]);
        index = end;
    }
    let start = input.len() - N;
    blocks::fill_block::<N, V>(&input[start..], upper, &mut output[2 * start..]);
}

/// Whether every byte is a digit. The text has at least one block. Four blocks share one test while more than four are
/// left.
// The first block is checked before the loops, so that LLVM keeps its constants in registers there.
#[inline(always)]
pub(crate) fn check<const N: usize, V: LaneOps<N>>(text: &[u8]) -> bool {
    if !blocks::check_block::<N, V>(&text[..N]) {
        return false;
    }
    let mut index = N;
    while text.len() - index > 4 * N {
        let end = index + 4 * N;
        if !blocks::check_four_blocks::<N, V>(&text[index..end]) {
            return false;
        }
        index = end;
    }
    while text.len() - index > N {
        let end = index + N;
        if !blocks::check_block::<N, V>(&text[index..end]) {
            return false;
        }
        index = end;
    }
    blocks::check_block::<N, V>(&text[text.len() - N..])
}

/// Decodes the text to at least one block of bytes and returns true. Two blocks share one test while more than two are
/// left: they have as many vectors as four blocks of `check`. A test that fails ends the call, which returns false. The
/// blocks before it are decoded then.
#[inline(always)]
pub(crate) fn decode<const N: usize, V: LaneOps<N>>(text: &[u8], output: &mut [u8]) -> bool {
    let mut index = 0;
    while output.len() - index > 2 * N {
        let end = index + 2 * N;
        if !blocks::decode_two_blocks::<N, V>(&text[2 * index..2 * end], &mut output[index..end]) {
            return false;
        }
        index = end;
    }
    while output.len() - index > N {
        let end = index + N;
        if !blocks::decode_block::<N, V>(&text[2 * index..2 * end], &mut output[index..end]) {
            return false;
        }
        index = end;
    }
    let start = output.len() - N;
    blocks::decode_block::<N, V>(&text[2 * start..], &mut output[start..])
}

/// Decodes digits to at least one block of bytes.
#[inline(always)]
pub(crate) fn decode_unchecked<const N: usize, V: LaneOps<N>>(text: &[u8], output: &mut [u8]) {
    let mut index = 0;
    while output.len() - index > N {
        let end = index + N;
        blocks::decode_unchecked_block::<N, V>(&text[2 * index..2 * end], &mut output[index..end]);
        index = end;
    }
    let start = output.len() - N;
    blocks::decode_unchecked_block::<N, V>(&text[2 * start..], &mut output[start..]);
}

/// Decodes a text with an invalid character as const-hex does, and returns false: block by block until one is invalid,
/// of which nothing is written. What is too short for a block of N lanes is decoded by at most one of 16, and then by
/// pairs. The result is true if another process has removed the invalid character from shared memory in between.
// Not inlined: with this body the public decoders would be too large to be inlined.
#[cold]
#[inline(never)]
pub(crate) fn decode_before_invalid<const N: usize, V: LaneOps<N> + LaneOps<16>>(
    text: &[u8],
    output: &mut [u8],
) -> bool {
    let mut index = 0;
    while output.len() - index >= N {
        let end = index + N;
        if !blocks::decode_block::<N, V>(&text[2 * index..2 * end], &mut output[index..end]) {
            return false;
        }
        index = end;
    }
    while output.len() - index >= 16 {
        let end = index + 16;
        if !blocks::decode_block::<16, V>(&text[2 * index..2 * end], &mut output[index..end]) {
            return false;
        }
        index = end;
    }
    Plain::decode_checked(&text[2 * index..], &mut output[index..])
}
