//! Encoding and decoding of keys, passwords and other secrets.
//!
//! For valid input, whatever depends on a byte happens in the inner loop, the kernel. On x86-64 with SSE4.2, and on
//! AArch64 with an operating system, that is machine code, of which it is proved that no branch and no address depends
//! on a byte: for Linux on x86-64, and for releases also for Linux on AArch64 and Windows on x86-64. Elsewhere it
//! computes digits without a table, and one branch after the last byte tests whether all are digits, which is
//! constant-time by design, and tested on x86-64. The code around it, which is compiled with yours, only copies bytes.
//!
//! Nothing here clears the stack, a register, or text of yours. [`decode_to_array`] may leave a copy on the stack: to
//! wipe a key, decode it by [`decode_to_slice`] into a buffer that you wipe.
//!
//! ```
//! # use const_hex_proved::secret;
//! let mut text = [0; 8];
//! secret::encode_to_slice("kiwi", &mut text)?;
//! assert_eq!(secret::decode_to_array(text), Ok(*b"kiwi"));
//! # Ok::<(), secret::Error>(())
//! ```
//!
//! A prefix is an error, since a test for one would decide by a byte. If you know that there is one, leave out these
//! two bytes, which this does not test. Do not slice a `&str`: that can panic, with the text in the message.
//!
//! ```
//! # use const_hex_proved::secret;
//! let digits = "0x6b697769".as_bytes().get(2..).unwrap_or_default();
//! assert_eq!(secret::decode_to_array(digits), Ok(*b"kiwi"));
//! ```

use crate::kernel::secret::{clear, fill, read};
use crate::std_shim::error;
#[cfg(feature = "alloc")]
use alloc::{string::String, vec};
use core::fmt;

/// Why text cannot be decoded, or does not fit into an output. It has no character of the text, and no position.
#[derive(Clone, Copy, Debug, PartialEq, Eq)]
pub enum Error {
    /// The text does not have two characters for each byte.
    InvalidStringLength,
    /// Some character is not a digit.
    InvalidHexCharacter,
}

impl fmt::Display for Error {
    fn fmt(&self, f: &mut fmt::Formatter<'_>) -> fmt::Result {
        f.write_str(match self {
            Error::InvalidStringLength => "invalid string length",
            Error::InvalidHexCharacter => "invalid character",
        })
    }
}

impl error::Error for Error {}

/// Fills `output` with two lowercase digits per byte. Does not allocate.
///
/// Returns [`Error::InvalidStringLength`], and fills `output` with zeros, unless it has the text's length.
///
/// ```
/// # use const_hex_proved::secret::encode_to_slice;
/// let mut text = [0; 8];
/// encode_to_slice("kiwi", &mut text)?;
/// assert_eq!(&text, b"6b697769");
/// # Ok::<(), const_hex_proved::secret::Error>(())
/// ```
#[inline]
pub fn encode_to_slice<T: AsRef<[u8]>>(data: T, output: &mut [u8]) -> Result<(), Error> {
    write(data.as_ref(), false, output)
}

/// Does the same as [`encode_to_slice`] in uppercase, with the same error.
#[inline]
pub fn encode_to_slice_upper<T: AsRef<[u8]>>(data: T, output: &mut [u8]) -> Result<(), Error> {
    write(data.as_ref(), true, output)
}

#[inline]
fn write(bytes: &[u8], upper: bool, output: &mut [u8]) -> Result<(), Error> {
    if output.len() != bytes.len() << 1 {
        clear(output);
        return Err(Error::InvalidStringLength);
    }
    fill(bytes, upper, output);
    Ok(())
}

/// Returns two lowercase digits per byte, in order. Allocates, and nothing clears the text when it is dropped.
///
/// ```
/// # use const_hex_proved::secret::encode;
/// assert_eq!(encode("kiwi"), "6b697769");
/// ```
#[cfg(feature = "alloc")]
#[inline]
#[must_use]
pub fn encode<T: AsRef<[u8]>>(data: T) -> String {
    encode_to_string(data.as_ref(), false)
}

/// Does the same as [`encode`] in uppercase.
#[cfg(feature = "alloc")]
#[inline]
#[must_use]
pub fn encode_upper<T: AsRef<[u8]>>(data: T) -> String {
    encode_to_string(data.as_ref(), true)
}

#[cfg(feature = "alloc")]
#[inline]
fn encode_to_string(bytes: &[u8], upper: bool) -> String {
    let mut text = vec![0; bytes.len() << 1];
    fill(bytes, upper, &mut text);
    // SAFETY: the text has digits alone, which are ASCII. Checking this would branch on them.
    unsafe { String::from_utf8_unchecked(text) }
}

/// Fills `out` with the bytes that text decodes to. Does not allocate.
///
/// Returns [`Error::InvalidStringLength`], unless the text has two characters for each byte of `out`, or else
/// [`Error::InvalidHexCharacter`], if one is not a digit. After an error `out` is filled with zeros.
///
/// ```
/// # use const_hex_proved::secret::{decode_to_slice, Error};
/// let mut bytes = [0; 4];
/// decode_to_slice("6b697769", &mut bytes)?;
/// assert_eq!(&bytes, b"kiwi");
/// assert_eq!(decode_to_slice("6b69776z", &mut bytes), Err(Error::InvalidHexCharacter));
/// assert_eq!(bytes, [0; 4]);
/// # Ok::<(), Error>(())
/// ```
#[inline]
pub fn decode_to_slice<T: AsRef<[u8]>>(data: T, out: &mut [u8]) -> Result<(), Error> {
    decode(data.as_ref(), out)
}

// Not inlined, so that there is a single branch on whether text is valid.
#[inline(never)]
fn decode(text: &[u8], out: &mut [u8]) -> Result<(), Error> {
    let error = match text.len() == out.len() << 1 {
        true if read(text, out) => return Ok(()),
        true => Error::InvalidHexCharacter,
        false => Error::InvalidStringLength,
    };
    clear(out);
    Err(error)
}

/// Returns the `N` bytes that text decodes to, or the errors of [`decode_to_slice`]. Does not allocate.
///
/// ```
/// # use const_hex_proved::secret::decode_to_array;
/// assert_eq!(decode_to_array("6B697769"), Ok(*b"kiwi"));
/// ```
#[inline]
pub fn decode_to_array<T: AsRef<[u8]>, const N: usize>(input: T) -> Result<[u8; N], Error> {
    let mut bytes = [0; N];
    decode_to_slice(input, &mut bytes)?;
    Ok(bytes)
}
