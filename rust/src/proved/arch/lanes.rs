// Made by rust/erase from crates/const_hex_arch/src/arch/lanes.rt. Do not edit.
//! Arithmetic on vectors of hexadecimal characters, for any number of lanes: the value of a digit,
//! the digit of a value, and the test whether all lanes are digits. docs/DESIGN.md works through an
//! example.

use crate::std_shim::prelude::*;
use crate::std_shim::simd::prelude::*;

/// The operations that depend on the number of lanes `N`. Everything else in a kernel is written once,
/// over this trait.
pub trait LaneOps<const N: usize> {
    /// Fills the output with two digits for each lane, in order.
    fn write_digits(v: Simd<u8, N>, upper: bool, output: &mut [u8]);

    /// The limit of each lane, by a table look-up of its low nibble. If the lane is a digit, its value is at
    /// most the limit.
    fn look_up_limits(v: Simd<u8, N>) -> Simd<u8, N>;

    /// One byte for each two nibbles, the high one first.
    fn merge(first: Simd<u8, N>, second: Simd<u8, N>) -> Simd<u8, N>;

    /// Whether the bits 7, 6, 4 and 3 of every lane are clear.
    fn are_clear(error_bits: Simd<u8, N>) -> bool;
}

/// The operations on vectors, by multiplications.
pub struct Multiplying;

/// The value of each lane that is a digit, and more than 15 for every other lane.
///
/// This is algorithm 3 of Wojciech Muła and Geoff Langdale, "Validating hexadecimal", 2022-01-17.
// Reviewed against the published arithmetic, min(satsub(v + 0xC6, 6) - 0xF0, satadd((v & 0xDF) -
// 0x41, 10)) with sums and differences that wrap, and equal to it on each of the 256 bytes.
#[inline(always)]
pub(crate) fn nibbles<const N: usize>(v: Simd<u8, N>) -> Simd<u8, N> {
    let decimal = (v + Simd::splat(0xC6)).saturating_sub(Simd::splat(6)) - Simd::splat(0xF0);
    let letter = (v & Simd::splat(0xDF)) - Simd::splat(0x41);
    // The paper adds 10 with saturation. `min(letter, 245) + 10` is the same, and does not wrap.
    let letter = letter.simd_min(Simd::splat(245)) + Simd::splat(10);
    decimal.simd_min(letter)
}

/// The value of each lane that is a digit.
#[inline(always)]
pub(crate) fn unhex<const N: usize>(v: Simd<u8, N>) -> Simd<u8, N> {
    let nine = Simd::splat(9);
    (v & Simd::splat(15)) + v.simd_gt(Simd::splat(64)).select(nine, Simd::splat(0))
}

/// `min(lane - 48, limit)` for each lane. If the lane is a digit, this is its value. Otherwise it
/// is a number by which [`error_bits`] rejects the lane.
#[inline(always)]
pub(crate) fn values<const N: usize, V: LaneOps<N>>(v: Simd<u8, N>) -> Simd<u8, N> {
    (v - Simd::splat(0x30)).simd_min(V::look_up_limits(v))
}

/// The error bits of each lane: the lane less 48, less its value. The lane is a digit if and only if
/// the bits 7, 6, 4 and 3 (the mask `0xD8`) of this number are clear. The error bits of several vectors can
/// be joined with `|` and tested at once.
// `(v - 48).saturating_sub(limits)` is the same number. But then the limits of all vectors would
// stay in registers beside the values until the error bits are tested, and SSE has only 16 registers.
#[inline(always)]
pub(crate) fn error_bits<const N: usize, V: LaneOps<N>>(v: Simd<u8, N>) -> Simd<u8, N> {
    v - Simd::splat(0x30) - values::<N, V>(v)
}

/// Whether every lane is a digit.
#[inline(always)]
pub(crate) fn are_digits<const N: usize, V: LaneOps<N>>(v: Simd<u8, N>) -> bool {
    V::are_clear(error_bits::<N, V>(v))
}

/// Whether every lane of both vectors is a digit, by one test.
#[inline(always)]
pub(crate) fn are_all_digits<const N: usize, V: LaneOps<N>>(
    first: Simd<u8, N>,
    second: Simd<u8, N>,
) -> bool {
    V::are_clear(joint_error_bits::<N, V>(first, second))
}

/// The error bits of two vectors, joined.
#[inline(always)]
pub(crate) fn joint_error_bits<const N: usize, V: LaneOps<N>>(
    first: Simd<u8, N>,
    second: Simd<u8, N>,
) -> Simd<u8, N> {
    error_bits::<N, V>(first) | error_bits::<N, V>(second)
}

/// Decodes two vectors of digits to one vector of bytes. If some lane is not a digit, the result is
/// unspecified: test the error bits before you use it.
#[inline(always)]
pub(crate) fn decode<const N: usize, V: LaneOps<N>>(
    first: Simd<u8, N>,
    second: Simd<u8, N>,
) -> Simd<u8, N> {
    V::merge(values::<N, V>(first), values::<N, V>(second))
}

/// As [`decode`], by [`unhex`], which looks up no limits, for lanes that were tested before.
#[inline(always)]
pub(crate) fn decode_unchecked<const N: usize, V: LaneOps<N>>(
    first: Simd<u8, N>,
    second: Simd<u8, N>,
) -> Simd<u8, N> {
    V::merge(unhex(first), unhex(second))
}
