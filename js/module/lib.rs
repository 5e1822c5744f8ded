//! Three functions of `c/const_hex.h` for the WebAssembly module, which `../src/const_hex.js` calls. `error` is not
//! NULL.
//!
//! Each calls the crate for slices of the pointers and lengths that it gets. Nothing here allocates, or panics in a
//! release build.
#![no_std]
#![deny(unsafe_op_in_unsafe_fn)]
#![allow(clippy::missing_safety_doc)] // The header says what each function requires.

use const_hex_proved::{encode_full_to_slice, Decoder, FromHexError};
use core::mem::size_of;
use core::slice::{from_raw_parts, from_raw_parts_mut};

const UPPER: u32 = 1;
const PREFIX: u32 = 2;
const NO_NUL: u32 = 4;

/// `struct const_hex_error`.
#[repr(C)]
pub struct HexError {
    kind: u32,
    byte: u32,
    index: usize,
}

/// `struct const_hex_decoder` is a `Decoder`: two numbers, of which any values are valid, and zeros are new.
const _: () = assert!(size_of::<Decoder>() == size_of::<[usize; 2]>());

#[no_mangle]
pub unsafe extern "C" fn const_hex_encode(
    bytes: *const u8,
    bytes_length: usize,
    text: *mut u8,
    text_size: usize,
    flags: u32,
) -> bool {
    // SAFETY: the header requires of callers what these functions do.
    let (bytes, text) = unsafe { (slice(bytes, bytes_length), slice_mut(text, text_size)) };
    let is_encoded = encode(bytes, text, flags).is_some();
    match text.first_mut() {
        Some(first) if !is_encoded && flags & NO_NUL == 0 => *first = 0,
        _ => {}
    }
    is_encoded
}

/// Encodes bytes as the flags say. Returns `None`, and leaves the text unchanged, if it does not fit, or if a flag is
/// not known.
fn encode(bytes: &[u8], text: &mut [u8], flags: u32) -> Option<()> {
    let length = bytes
        .len()
        .checked_mul(2)?
        .checked_add((flags & PREFIX) as usize)?;
    match flags {
        0..=3 => *text.get_mut(length)? = 0,
        4..=7 => {}
        _ => return None,
    }
    encode_full_to_slice(
        bytes,
        flags & PREFIX != 0,
        flags & UPPER != 0,
        text.get_mut(..length)?,
    )
    .ok()
}

#[no_mangle]
pub unsafe extern "C" fn const_hex_decoder_update(
    decoder: &mut Decoder,
    text: *const u8,
    text_length: usize,
    bytes: *mut u8,
    bytes_size: usize,
    written: &mut usize,
    error: &mut HexError,
) -> bool {
    // SAFETY: the header requires of callers what these functions do.
    let (text, bytes) = unsafe { (slice(text, text_length), slice_mut(bytes, bytes_size)) };
    let count = decoder.decode(text, bytes);
    *written = *count.as_ref().unwrap_or(&0);
    is_ok(count, error)
}

#[no_mangle]
pub extern "C" fn const_hex_decoder_finish(decoder: &Decoder, error: &mut HexError) -> bool {
    is_ok(decoder.clone().finish(), error)
}

/// Returns whether a result is no error, which is stored otherwise.
fn is_ok<T>(result: Result<T, FromHexError>, error: &mut HexError) -> bool {
    let (kind, byte, index) = match result {
        Ok(_) => return true,
        Err(FromHexError::OddLength) => (1, 0, 0),
        Err(FromHexError::InvalidStringLength) => (2, 0, 0),
        Err(FromHexError::InvalidHexCharacter { c, index }) => (3, c.into(), index),
    };
    *error = HexError { kind, byte, index };
    false
}

/// The bytes of a buffer, whose pointer may be anything if it has none.
///
/// Safety: the buffer has this length, and nothing writes it while the result is used.
unsafe fn slice<'a>(start: *const u8, length: usize) -> &'a [u8] {
    match length {
        0 => &[],
        // SAFETY: the caller promises this.
        _ => unsafe { from_raw_parts(start, length) },
    }
}

/// The same for a buffer that is written.
///
/// Safety: the buffer has this length, and nothing else reads or writes it while the result is used.
unsafe fn slice_mut<'a>(start: *mut u8, length: usize) -> &'a mut [u8] {
    match length {
        0 => &mut [],
        // SAFETY: the caller promises this.
        _ => unsafe { from_raw_parts_mut(start, length) },
    }
}

/// In a release build no function panics.
#[panic_handler]
fn panic(_: &core::panic::PanicInfo<'_>) -> ! {
    core::arch::wasm32::unreachable()
}
