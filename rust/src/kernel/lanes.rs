//! The kernel for WebAssembly with vectors.

use super::Portable;
use crate::proved::Kernel;
use core::slice::{from_raw_parts, from_raw_parts_mut};

/// The kernel of 16 lanes. It checks and decodes in functions that are not inlined.
pub struct Vectors;

impl Kernel for Vectors {
    const USE_CHECK_FN: bool = Portable::USE_CHECK_FN;

    const PIECE: usize = Portable::PIECE;

    #[inline(always)]
    fn fill(input: &[u8], upper: bool, output: &mut [u8]) {
        Portable::fill(input, upper, output);
    }

    // Not inlined: `machine_code` in the repository proves it once, and takes its contract where it is called.
    #[inline(never)]
    fn check(input: &[u8]) -> bool {
        Portable::check(input)
    }

    #[inline(always)]
    fn decode_checked(input: &[u8], output: &mut [u8]) -> bool {
        assert!(input.len() == output.len() << 1);
        // SAFETY: the input has two bytes for each byte of the output.
        unsafe { read(input.as_ptr(), output.as_mut_ptr(), output.len()) }
    }

    #[inline(always)]
    fn decode_unchecked(input: &[u8], output: &mut [u8]) {
        Portable::decode_unchecked(input, output);
    }
}

/// Decodes the text to the bytes, and returns whether every character is a digit.
///
/// Safety: `bytes` has `length` bytes, and `text` twice as many, and both are initialized.
// Not inlined, as `check`.
#[inline(never)]
unsafe fn read(text: *const u8, bytes: *mut u8, length: usize) -> bool {
    // SAFETY: the caller promises that.
    unsafe {
        Portable::decode_all(
            from_raw_parts(text, 2 * length),
            from_raw_parts_mut(bytes, length),
        )
    }
}
