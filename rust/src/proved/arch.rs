// Made by rust/erase from crates/const_hex_arch/src/arch.rt. Do not edit.
//! Kernels, which encode bytes as digits and decode digits to bytes.

use crate::std_shim::prelude::*;

#[cfg(all(target_arch = "wasm32", target_feature = "simd128"))]
mod blocks;
#[cfg(all(target_arch = "wasm32", target_feature = "simd128"))]
pub mod by_length;
pub mod check_first;
#[cfg(all(target_arch = "wasm32", target_feature = "simd128"))]
mod lanes;
#[cfg(all(target_arch = "wasm32", target_feature = "simd128"))]
pub mod lanes16;
#[cfg(all(target_arch = "wasm32", target_feature = "simd128"))]
mod long;
pub mod plain;
#[cfg(all(target_arch = "wasm32", target_feature = "simd128"))]
mod short;

/// The kernel of every call that does not name one. It is named here and nowhere else. On x86-64 it is made for builds
/// with AVX2, and slower than `Lanes16` without it.
pub type FixedKernel = crate::kernel::TargetKernel;

/// Encodes bytes as digits, and decodes digits to bytes.
///
/// The codec relies only on the contracts of these calls, so it runs over any type that meets
/// them. None of them allocates.
pub trait Kernel {
    /// Whether decoders check a text before they decode it by this kernel. If so, an error leaves
    /// their output unchanged.
    const USE_CHECK_FN: bool;

    /// How many bytes of text `encode` in Rattle passes to its output at once: 1 if the kernel works byte by
    /// byte, and otherwise an even number up to 64. Other numbers are rounded down to one of these, and 0 counts as 1.
    /// A kernel with an `encode` of its own may write other pieces.
    const PIECE: usize;

    /// Fills the output with two digits for each byte, in order. The output must have exactly the
    /// length of that text.
    fn fill(input: &[u8], upper: bool, output: &mut [u8]);

    /// Whether every byte is a digit.
    fn check(input: &[u8]) -> bool;

    /// Decodes the input into the output and returns true. Returns false if some byte is not a
    /// digit. Then some of the pairs before that byte may have been decoded to the front of the
    /// output, and the rest of the output is unchanged. If the kernel checks first, all of the
    /// output is unchanged. The input must have two bytes for each byte of the output.
    fn decode_checked(input: &[u8], output: &mut [u8]) -> bool;

    /// As `decode_checked`, for a caller that has no use for the pairs before a byte that is not a
    /// digit. A kernel may then decode fewer of them, and return false sooner.
    #[inline(always)]
    fn decode_all(input: &[u8], output: &mut [u8]) -> bool {
        Self::decode_checked(input, output)
    }

    /// Decodes the input into the output. The input must have two bytes for each byte of the
    /// output, and only digits.
    fn decode_unchecked(input: &[u8], output: &mut [u8]);
}
