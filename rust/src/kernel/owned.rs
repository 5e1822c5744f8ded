//! Text and bytes in the spare capacity of vectors, which need not be initialized.

use super::{stack_buffer::write_text, unchecked};
use crate::proved::text_length;
use alloc::alloc::{alloc, handle_alloc_error, Layout};
use alloc::vec::Vec;

/// Reserves capacity for `count` more bytes.
// For an empty vector it calls the allocator: `Vec::with_capacity` and `Vec::reserve` are not inlined, and take some
// thirty instructions more (Rust 1.95).
#[inline]
fn reserve(vector: &mut Vec<u8>, count: usize) {
    match Layout::array::<u8>(count) {
        _ if vector.capacity() > 0 => vector.reserve(count),
        // Rust 1.63 makes layouts of more than `isize::MAX` bytes, which no vector may have.
        Ok(layout) if count > 0 && count <= isize::MAX as usize => {
            // SAFETY: the size is not zero, and a vector with a capacity of `count` bytes has this layout.
            unsafe {
                let start = alloc(layout);
                if start.is_null() {
                    handle_alloc_error(layout);
                }
                *vector = Vec::from_raw_parts(start, 0, count);
            }
        }
        _ => *vector = Vec::with_capacity(count),
    }
}

/// Appends the text of bytes, with `0x` before it if `prefix` is true.
#[inline]
pub fn encode_append(input: &[u8], prefix: bool, upper: bool, text: &mut Vec<u8>) {
    // A length that overflows is `usize::MAX`, for which this panics.
    let length = text_length(prefix, input.len());
    reserve(text, length);
    // SAFETY: the vector has capacity for `length` more bytes, and all of them are written.
    unsafe {
        write_text(input, prefix, upper, text.as_mut_ptr().add(text.len()));
        text.set_len(text.len() + length);
    }
}

/// Appends the bytes of digits, and returns true. If some byte is not a digit, returns false, and the vector's contents
/// are unchanged. The number of digits is even, as `strip_even` has tested.
#[inline]
pub fn decode_append(digits: &[u8], bytes: &mut Vec<u8>) -> bool {
    let count = digits.len() / 2;
    reserve(bytes, count);
    // SAFETY: there are at least two bytes of text for each of `count` bytes, for which the vector has capacity. If the
    // result is true, all of these are written.
    unsafe {
        let spare = bytes.as_mut_ptr().add(bytes.len());
        let is_valid = unchecked::read(digits.as_ptr(), spare, count);
        if is_valid {
            bytes.set_len(bytes.len() + count);
        }
        is_valid
    }
}
