//! The functions of `machine_code`, implemented by the kernel of the proved source. As there, the output need not be
//! initialized, so it is a pointer and not a slice.

use super::Portable;
use crate::proved::Kernel;
use core::{ptr, slice};

/// The number of bytes that the kernel encodes or decodes at a time.
const BLOCK: usize = Portable::PIECE;

#[inline(always)]
pub unsafe fn fill_lower(bytes: *const u8, length: usize, text: *mut u8) {
    // SAFETY: the caller promises what the function requires.
    unsafe { fill(bytes, length, false, text) }
}

#[inline(always)]
pub unsafe fn fill_upper(bytes: *const u8, length: usize, text: *mut u8) {
    // SAFETY: the same.
    unsafe { fill(bytes, length, true, text) }
}

#[inline(always)]
unsafe fn fill(bytes: *const u8, length: usize, upper: bool, text: *mut u8) {
    let mut block = [0; 2 * BLOCK];
    let mut index = 0;
    while index < length {
        let size = BLOCK.min(length - index);
        let digits = &mut block[..2 * size];
        // SAFETY: the caller promises `length` bytes, and space for two digits for each.
        unsafe {
            Portable::fill(slice::from_raw_parts(bytes.add(index), size), upper, digits);
            ptr::copy_nonoverlapping(digits.as_ptr(), text.add(2 * index), 2 * size);
        }
        index += size;
    }
}

#[inline(always)]
pub unsafe fn check(text: *const u8, length: usize) -> bool {
    // SAFETY: the caller promises `length` bytes.
    Portable::check(unsafe { slice::from_raw_parts(text, length) })
}

#[inline(always)]
pub unsafe fn read(text: *const u8, bytes: *mut u8, length: usize) -> bool {
    let mut block = [0; BLOCK];
    let mut index = 0;
    while index < length {
        let size = BLOCK.min(length - index);
        let decoded = &mut block[..size];
        // SAFETY: the caller promises space for `length` bytes, and two bytes of the text for each.
        unsafe {
            if !Portable::decode_checked(
                slice::from_raw_parts(text.add(2 * index), 2 * size),
                decoded,
            ) {
                return false;
            }
            ptr::copy_nonoverlapping(decoded.as_ptr(), bytes.add(index), size);
        }
        index += size;
    }
    true
}
