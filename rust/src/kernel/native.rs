//! The machine code as a kernel of the proved source.

use super::{machine_code, stack_buffer::write_text};
use crate::proved::Kernel;

/// The kernel of machine code. Each function asserts that it stays in the slices, although callers in `proved` never pass
/// other lengths. A length is doubled by a shift, since a debug build would test a product for overflow, which is
/// impossible: a slice has at most `isize::MAX` bytes.
pub struct MachineCode;

impl Kernel for MachineCode {
    const USE_CHECK_FN: bool = false;

    const PIECE: usize = 64;

    #[inline]
    fn fill(input: &[u8], upper: bool, output: &mut [u8]) {
        assert!(output.len() == input.len() << 1);
        // SAFETY: the output has two bytes for each byte of the input, and there is no prefix.
        unsafe { write_text(input, false, upper, output.as_mut_ptr()) }
    }

    #[inline]
    fn check(input: &[u8]) -> bool {
        // SAFETY: these are the bytes of the input.
        unsafe { machine_code::check(input.as_ptr(), input.len()) }
    }

    #[inline]
    fn decode_checked(input: &[u8], output: &mut [u8]) -> bool {
        // Callers have compared the same numbers, so the compiler removes this test.
        assert!(input.len() / 2 == output.len());
        let (text, bytes) = (input.as_ptr(), output.as_mut_ptr());
        // SAFETY: the input has two bytes for each byte of the output.
        unsafe { machine_code::read(text, bytes, output.len()) }
    }

    #[inline]
    fn decode_unchecked(input: &[u8], output: &mut [u8]) {
        Self::decode_checked(input, output);
    }
}
