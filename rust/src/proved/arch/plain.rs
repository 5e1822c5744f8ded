// Made by rust/erase from crates/const_hex_arch/src/arch/plain.rt. Do not edit.
//! The kernel that goes byte by byte.

use crate::std_shim::prelude::*;
use crate::proved::arch::Kernel;
use crate::proved::tables::{NIL, digits_at, value_at};

/// A kernel that works byte by byte, with tables in memory.
pub type Plain = ByteByByte<true>;

/// As [`Plain`], but it encodes digit by digit, so it needs no table of pairs: less data, and more
/// instructions.
pub type Compact = ByteByByte<false>;

/// [`Plain`], or without `PAIRS` [`Compact`].
pub struct ByteByByte<const PAIRS: bool>;

impl<const PAIRS: bool> Kernel for ByteByByte<PAIRS> {
    const USE_CHECK_FN: bool = false;

    const PIECE: usize = 1;

    #[inline(always)]
    fn fill(input: &[u8], upper: bool, output: &mut [u8]) {
        // In the Rust that is made of this, LLVM leaves out the tests of indices by this length, which cannot overflow.
        let text = &mut output[..input.len().saturating_mul(2)];
        for i in 0..input.len() {
            text[2 * i..2 * i + 2].copy_from_slice(&digits_at::<PAIRS>(upper, input[i]));
        }
    }

    #[inline(always)]
    fn check(input: &[u8]) -> bool {
        for b in input {
            if value_at(*b) == NIL {
                return false;
            }
        }
        true
    }

    #[inline(always)]
    fn decode_checked(input: &[u8], output: &mut [u8]) -> bool {
        // By this length, as in `fill`.
        let text = &input[..output.len().saturating_mul(2)];
        for i in 0..output.len() {
            let high = value_at(text[2 * i]);
            let low = value_at(text[2 * i + 1]);
            // NIL alone has the highest bit.
            if high | low >= 128 {
                return false;
            }
            output[i] = high * 16 + low;
        }
        true
    }

    #[inline(always)]
    fn decode_unchecked(input: &[u8], output: &mut [u8]) {
        for i in 0..output.len() {
            output[i] = value_at(input[2 * i]) * 16 + value_at(input[2 * i + 1]);
        }
    }
}
