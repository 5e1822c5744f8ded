//! The kernel for secrets. These functions branch on lengths alone.

use super::constant_time;

/// Fills the text with the digits of the bytes. Panics unless it has two bytes for each.
#[inline]
pub fn fill(bytes: &[u8], upper: bool, text: &mut [u8]) {
    assert!(text.len() == bytes.len() << 1);
    let (from, to) = (bytes.as_ptr(), text.as_mut_ptr());
    // SAFETY: the text has two bytes for each byte.
    unsafe {
        match upper {
            true => constant_time::fill_upper(from, bytes.len(), to),
            false => constant_time::fill_lower(from, bytes.len(), to),
        }
    }
}

/// Decodes the text, and returns whether every character is a digit. If not, the bytes may be anything. Panics unless
/// the text has two characters for each byte.
#[inline]
pub fn read(text: &[u8], bytes: &mut [u8]) -> bool {
    assert!(text.len() == bytes.len() << 1);
    // SAFETY: the text has two characters for each byte.
    unsafe { constant_time::read(text.as_ptr(), bytes.as_mut_ptr(), bytes.len()) }
}

/// Fills the output with zeros, also where nothing reads it afterwards.
#[cold]
pub fn clear(output: &mut [u8]) {
    for byte in output {
        // SAFETY: this is a byte of a slice.
        unsafe { core::ptr::write_volatile(byte, 0) }
    }
}
