//! Uninitialized buffers on the stack, for text or bytes.

use super::{unchecked, TargetKernel};
use crate::proved::{text_length, Kernel};
use core::{mem::MaybeUninit, ptr};

/// An array of `N` bytes that need not be initialized.
pub struct StackBuffer<const N: usize>(MaybeUninit<[u8; N]>);

impl<const N: usize> StackBuffer<N> {
    /// Returns an uninitialized buffer.
    #[inline]
    pub fn new() -> Self {
        StackBuffer(MaybeUninit::uninit())
    }

    /// Writes the text of bytes, with `0x` before it if `prefix` is true, and returns it. Panics if it has more than
    /// `N` bytes.
    #[inline]
    pub fn encode(&mut self, bytes: &[u8], prefix: bool, upper: bool) -> &[u8] {
        let length = text_length(prefix, bytes.len());
        assert!(length <= N);
        let text = self.0.as_mut_ptr().cast();
        // SAFETY: the buffer has space for `length` bytes, and all of them are written.
        unsafe {
            write_text(bytes, prefix, upper, text);
            &*ptr::slice_from_raw_parts(text, length)
        }
    }

    /// Returns the bytes of digits, or `None` if some byte is not a digit. Panics unless there are two for each of `N`
    /// bytes.
    #[inline]
    pub fn decode(&mut self, digits: &[u8]) -> Option<&[u8; N]> {
        assert!(digits.len() == N << 1);
        let bytes = self.0.as_mut_ptr().cast();
        // SAFETY: there are two digits for each of `N` bytes, and if the result is true, all bytes are written.
        unsafe {
            let is_valid = if TargetKernel::PIECE == 1 && matches!(N, 5..=22) {
                read_outlined::<N>(digits.as_ptr(), bytes)
            } else {
                unchecked::read(digits.as_ptr(), bytes, N)
            };
            match is_valid {
                true => Some(&*self.0.as_ptr().cast()),
                false => None,
            }
        }
    }
}

/// Decodes `N` bytes by `unchecked::read`. Safety: what that requires.
// Not inlined: for up to 22 bytes LLVM unrolls the loop, and would keep all bytes in registers, too few for more than 4,
// until it writes them. Outlined, 8 bytes take 109 instructions in place of 147, and 20 take 238 in place of 296 (rustc
// 1.95, x86-64).
#[inline(never)]
unsafe fn read_outlined<const N: usize>(text: *const u8, bytes: *mut u8) -> bool {
    // SAFETY: the caller promises what the function requires.
    unsafe { unchecked::read(text, bytes, N) }
}

/// Writes the text of bytes, with `0x` before it if `prefix` is true.
///
/// Safety: `text` is valid for writes of as many bytes as the text has. They need not be initialized, and are afterwards.
#[inline(always)]
pub unsafe fn write_text(bytes: &[u8], prefix: bool, upper: bool, text: *mut u8) {
    // SAFETY: the caller promises the space for the prefix and for two digits for each byte.
    unsafe {
        let mut digits = text;
        if prefix {
            text.cast::<[u8; 2]>().write(*b"0x");
            digits = text.add(2);
        }
        match upper {
            true => unchecked::fill_upper(bytes.as_ptr(), bytes.len(), digits),
            false => unchecked::fill_lower(bytes.as_ptr(), bytes.len(), digits),
        }
    }
}
