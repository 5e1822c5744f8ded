// Made by rust/erase from crates/const_hex_arch/src/arch/lanes16.rt. Do not edit.
//! The kernel of 16 lanes, one byte per lane, and its calls on vectors.
//!
//! Each of these calls has a contract for every vector: [`encode_chunk`], [`check_chunk`],
//! [`decode_chunk`], [`nibbles`] and [`unhex`].

use crate::std_shim::prelude::*;
use crate::proved::arch::by_length::ByLength;
use crate::proved::arch::lanes::{self, LaneOps, Multiplying};
use crate::std_shim::simd::prelude::*;

/// For each low nibble of a byte the limit: no digit with this low nibble has a greater value.
// `byte - 48` is the value of `0` to `9`, and more than the value of a letter. For a low nibble that
// a letter has (1 to 6), the limit is the value of the letter, so the minimum of both is the value
// of every digit. The error bits are `byte - 48 - value`: 0 for `0` to `9`, 7 for `A` to `F` and 39 for
// `a` to `f`, none of which has a bit of 0xD8. Every other byte leaves a number that has one. For a
// low nibble that only a decimal digit has (0, 7, 8, 9), the limit is one more than its value. With
// the value itself, `P`, `W`, `X` and `Y` would leave the number 32, and pass as digits.
const LIMITS: [u8; 16] = [1, 10, 11, 12, 13, 14, 15, 8, 9, 10, 0, 0, 0, 0, 0, 0];

/// The digits in lowercase, and in uppercase.
const DIGITS: &[[u8; 16]; 2] = &[*b"0123456789abcdef", *b"0123456789ABCDEF"];

/// The digits in order of their values: a table for look-ups by `swizzle_dyn`.
#[inline(always)]
pub(crate) fn digit_table(upper: bool) -> [u8; 16] {
    DIGITS[usize::from(upper)]
}

/// The lanes twice, one copy in each half of a vector.
#[inline(always)]
fn repeat_lanes(lanes: [u8; 16]) -> u8x32 {
    let half = u8x16::from_array(lanes);
    concat_lanes(half, half)
}

/// Two digits for each lane, in order: the text of the first 8 lanes, and the text of the last 8.
#[inline(always)]
pub fn encode_chunk<const UPPER: bool>(v: u8x16) -> [u8x16; 2] {
    let text = encode_lanes(v, UPPER);
    [text.extract::<0, 16>(), text.extract::<16, 16>()]
}

/// Whether every lane is a digit.
#[inline(always)]
pub fn check_chunk(v: u8x16) -> bool {
    lanes::are_digits::<16, Multiplying>(v)
}

/// The value of each lane that is a digit, and more than 15 for every other lane.
///
/// This is algorithm 3 of Wojciech Muła and Geoff Langdale, "Validating hexadecimal", 2022-01-17.
#[inline(always)]
pub fn nibbles(v: u8x16) -> u8x16 {
    lanes::nibbles(v)
}

/// Decodes the lanes of a text, or returns `None` if one of these lanes is not a digit.
#[inline(always)]
pub fn decode_chunk(text: [u8x16; 2]) -> Option<u8x16> {
    let (bytes, are_digits) = decode_flagged(text);
    if are_digits { Some(bytes) } else { None }
}

/// The value of each lane that is a digit. Any other lane gets any value.
#[inline(always)]
pub fn unhex(v: u8x16) -> u8x16 {
    lanes::unhex(v)
}

/// The kernel for vectors of 16 lanes. It encodes 16 bytes, checks 16 characters and decodes 32
/// characters at a time. The remainder is encoded, checked and decoded together with what is
/// before it, as one more vector that overlaps the last one.
pub type Lanes16 = ByLength<16, Multiplying>;

impl LaneOps<16> for Multiplying {
    #[inline(always)]
    fn write_digits(v: u8x16, upper: bool, output: &mut [u8]) {
        encode_lanes(v, upper).copy_to_slice(output);
    }

    // Constant time: this is a shuffle within a register, so no byte selects a memory address.
    // `swizzle_dyn` takes indices from 0 to 15, and from 128 on, for which it returns 0. The mask
    // leaves only such indices. On x86-64 it costs nothing, since `pshufb` looks at exactly these five
    // bits.
    #[inline(always)]
    fn look_up_limits(v: u8x16) -> u8x16 {
        u8x16::from_array(LIMITS).swizzle_dyn(v & u8x16::splat(0x8F))
    }

    #[inline(always)]
    fn merge(first: u8x16, second: u8x16) -> u8x16 {
        pack(concat_lanes(first, second))
    }

    // Reduced as lanes of 64 bits: for AArch64, LLVM takes five instructions more for lanes of 8 bits.
    #[inline(always)]
    fn are_clear(error_bits: u8x16) -> bool {
        u64x2::from_le_bytes(error_bits & u8x16::splat(0xD8)).reduce_or() == 0
    }
}

/// Two digits for each lane, in order.
#[inline(always)]
pub(crate) fn encode_lanes(v: u8x16, upper: bool) -> u8x32 {
    repeat_lanes(digit_table(upper)).swizzle_dyn_within::<16>(split_nibbles(v))
}

/// As `encode_lanes`, for 8 lanes.
#[inline(always)]
pub(crate) fn encode_8_lanes(v: u8x8, upper: bool) -> u8x16 {
    u8x16::from_array(digit_table(upper)).swizzle_dyn(split_8_nibbles(v))
}

/// As `split_nibbles`, for 8 lanes.
#[inline(always)]
fn split_8_nibbles(v: u8x8) -> u8x16 {
    let wide: u16x8 = v.cast();
    ((wide * u16x8::splat(4097)) >> u16x8::splat(4)).to_le_bytes()
}

/// The two nibbles of each lane, the high one first.
// Each byte is widened to 16 bits and multiplied by 4097 = 0x1001. That adds a copy 12 bits higher,
// of which only the low nibble fits: 0x00B4 becomes 0x40B4. Shifted right by 4 it is 0x040B, in
// memory the bytes 0x0B and 0x04: the high nibble first.
#[inline(always)]
fn split_nibbles(v: u8x16) -> u8x32 {
    let wide: u16x16 = v.cast();
    ((wide * u16x16::splat(4097)) >> u16x16::splat(4)).to_le_bytes()
}

/// Decodes the lanes of a text, and says whether each of these lanes is a digit. If one is not, the
/// bytes are unspecified.
// Once for each width: Rattle has no rule yet for a tuple with a vector of any number of lanes.
#[inline(always)]
fn decode_flagged(text: [u8x16; 2]) -> (u8x16, bool) {
    (
        lanes::decode::<16, Multiplying>(text[0], text[1]),
        lanes::are_all_digits::<16, Multiplying>(text[0], text[1]),
    )
}

/// The lanes of both vectors, in order.
#[inline(always)]
pub(crate) fn concat_lanes(first: u8x16, second: u8x16) -> u8x32 {
    first.shuffle(
        second,
        [
            0, 1, 2, 3, 4, 5, 6, 7, 8, 9, 10, 11, 12, 13, 14, 15, 16, 17, 18, 19, 20, 21, 22, 23,
            24, 25, 26, 27, 28, 29, 30, 31,
        ],
    )
}

/// One byte for each two lanes, which must be nibbles.
// Two nibbles, the high one first, are read as one number of 16 bits, high + 256 * low. Multiplied
// by 4097 = 0x1001, its upper byte is 16 * high + low: 0x040B becomes 0xB40B. The shift leaves
// 0xB4.
#[inline(always)]
fn pack(nibbles: u8x32) -> u8x16 {
    let pairs = u16x16::from_le_bytes(nibbles);
    ((pairs * u16x16::splat(4097)) >> u16x16::splat(8)).cast()
}
