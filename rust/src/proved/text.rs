// Made by rust/erase from crates/const_hex_arch/src/text.rt. Do not edit.
//! The whole text of bytes: its length, and how it is written.

use crate::std_shim::prelude::*;
use crate::proved::arch::Kernel;

/// The length of the text of `count` bytes, with `0x` before it if `prefix` is true. If that does
/// not fit into a `usize`, this is `usize::MAX`, which no text has, since it is odd.
#[inline(always)]
pub fn text_length(prefix: bool, count: usize) -> usize {
    count
        .saturating_mul(2)
        .saturating_add(if prefix { 2 } else { 0 })
}

/// Fills the output with the text of the input, by the kernel `K`, with `0x` before it if `prefix`
/// is true. The output must have exactly the length of that text. Does not allocate.
#[inline(always)]
pub fn fill_text<K: Kernel>(input: &[u8], prefix: bool, upper: bool, output: &mut [u8]) {
    let (front, digits) = output.split_at_mut(if prefix { 2 } else { 0 });
    if prefix {
        front[0] = b'0';
        front[1] = b'x';
    }
    K::fill(input, upper, digits);
}

/// ASCII bytes as text, without a copy or a test at run time. Does not allocate.
#[inline(always)]
pub fn ascii_text(bytes: &[u8]) -> &str {
    // SAFETY: ASCII is UTF-8.
    unsafe { str::from_utf8_unchecked(bytes) }
}
