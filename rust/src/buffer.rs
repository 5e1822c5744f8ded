//! Text in an array.

use crate::proved::codec::encoders::encode_full_to_slice;
use crate::proved::tables::digits_at;
#[cfg(feature = "alloc")]
use alloc::{string::String, vec::Vec};
use core::{fmt, mem::transmute, str};

/// An array with the text of `N` bytes. If `PREFIX` is true, the text begins with `0x`.
///
/// A new buffer has the prefix, if any, and NUL characters in place of the digits. Each method that formats writes the
/// whole text, prefix included. No method allocates unless it says so. Buffers are equal if their text is; the
/// comparison is not constant-time.
///
/// ```
/// # use const_hex_proved::Buffer;
/// let mut buffer = Buffer::<4, true>::new();
/// assert_eq!(buffer.as_str(), "0x\0\0\0\0\0\0\0\0");
/// assert_eq!(buffer.format(b"kiwi"), "0x6b697769");
/// assert_eq!(buffer.format_upper(b"kiwi"), "0x6B697769");
///
/// const PEAR: Buffer<4> = Buffer::new().const_format(b"pear");
/// assert_eq!(PEAR.as_str(), "70656172");
/// assert_eq!(format!("{PEAR:>10}"), "  70656172");
/// ```
// `as_ptr` relies on the order of the fields, without padding between them. The text is always UTF-8.
#[must_use]
#[repr(C)]
#[derive(Clone, Copy, PartialEq, Eq)]
pub struct Buffer<const N: usize, const PREFIX: bool = false> {
    /// Not in the text if `PREFIX` is false.
    prefix: [u8; 2],
    digits: [[u8; 2]; N],
}

impl<const N: usize, const PREFIX: bool> Buffer<N, PREFIX> {
    /// The length of the text: two digits per byte, and 2 more if `PREFIX` is true.
    pub const LEN: usize = Self::PREFIX_LEN + 2 * N;

    const PREFIX_LEN: usize = if PREFIX { 2 } else { 0 };

    /// A constant, since without optimization the array expression is a loop.
    const NO_DIGITS: [[u8; 2]; N] = [[0; 2]; N];

    /// Returns a buffer with the prefix, if any, and `2 * N` NUL characters.
    #[inline]
    pub const fn new() -> Self {
        Buffer {
            prefix: *b"0x",
            digits: Self::NO_DIGITS,
        }
    }

    /// Returns a buffer with the text of `array` in lowercase. At run time use [`format`](Self::format), since this
    /// looks digits up in a table.
    #[inline]
    pub const fn const_format(self, array: &[u8; N]) -> Self {
        Self::encoded(array, false)
    }

    /// Does the same as [`const_format`](Self::const_format) in uppercase.
    #[inline]
    pub const fn const_format_upper(self, array: &[u8; N]) -> Self {
        Self::encoded(array, true)
    }

    /// Returns a buffer with the text of `array`.
    // Not by the proved `Buffer`, which has a const parameter for the length of its text: Rust 1.63 cannot compute that
    // from `N`. Nor by an encoder, since a `const fn` of Rust 1.63 cannot write to a `&mut [u8]`.
    pub(crate) const fn encoded(array: &[u8; N], upper: bool) -> Self {
        let mut buffer = Self::new();
        let mut index = 0;
        while index < N {
            buffer.digits[index] = digits_at::<true>(upper, array[index]);
            index += 1;
        }
        buffer
    }

    /// Writes the text of `array` in lowercase, and returns the whole text.
    #[inline]
    pub fn format(&mut self, array: &[u8; N]) -> &mut str {
        self.write(array, false)
    }

    /// Does the same as [`format`](Self::format) in uppercase.
    #[inline]
    pub fn format_upper(&mut self, array: &[u8; N]) -> &mut str {
        self.write(array, true)
    }

    /// Writes the text of `slice` in lowercase, and returns the whole text. Panics unless `slice` has `N` bytes. The
    /// buffer is unchanged then.
    ///
    /// ```
    /// # use const_hex_proved::Buffer;
    /// assert_eq!(Buffer::<4>::new().format_slice("kiwi"), "6b697769");
    /// ```
    #[inline]
    #[track_caller]
    pub fn format_slice<T: AsRef<[u8]>>(&mut self, slice: T) -> &mut str {
        self.write(slice.as_ref(), false)
    }

    /// Does the same as [`format_slice`](Self::format_slice) in uppercase, and panics as it does.
    #[inline]
    #[track_caller]
    pub fn format_slice_upper<T: AsRef<[u8]>>(&mut self, slice: T) -> &mut str {
        self.write(slice.as_ref(), true)
    }

    /// Writes the whole text.
    #[inline]
    #[track_caller]
    fn write(&mut self, bytes: &[u8], upper: bool) -> &mut str {
        // SAFETY: an error leaves the text unchanged, and otherwise it is digits and a prefix: ASCII.
        let text = unsafe { self.as_mut_bytes() };
        if encode_full_to_slice(bytes, PREFIX, upper, text).is_err() {
            panic!("the slice has {} bytes instead of {N}", bytes.len());
        }
        self.as_mut_str()
    }

    /// Returns a copy of the text. Allocates.
    #[cfg(feature = "alloc")]
    // Not the one of `ToString`, which formats, and is not there without an import in a crate without `std`.
    #[allow(clippy::inherent_to_string_shadow_display)]
    #[inline]
    #[must_use]
    pub fn to_string(&self) -> String {
        String::from(self.as_str())
    }

    /// Returns a copy of the text as bytes. Allocates.
    #[cfg(feature = "alloc")]
    #[inline]
    #[must_use]
    pub fn to_vec(&self) -> Vec<u8> {
        self.as_bytes().to_vec()
    }

    /// Returns the text. The other views are the text that can be changed, and its bytes.
    ///
    /// ```
    /// # use const_hex_proved::{const_encode, Buffer};
    /// let mut buffer: Buffer<4> = const_encode(b"kiwi");
    /// assert_eq!(buffer.as_str(), "6b697769");
    /// buffer.as_mut_str().make_ascii_uppercase();
    /// assert_eq!(buffer.as_bytes(), b"6B697769");
    /// // SAFETY: X is ASCII.
    /// unsafe { buffer.as_mut_bytes()[1] = b'X' };
    /// assert_eq!(buffer.to_string(), "6X697769");
    /// ```
    #[inline]
    #[must_use]
    pub const fn as_str(&self) -> &str {
        // SAFETY: the text is UTF-8 at all times.
        unsafe { str::from_utf8_unchecked(self.as_bytes()) }
    }

    /// Returns the text, which can be changed.
    #[inline]
    pub fn as_mut_str(&mut self) -> &mut str {
        // SAFETY: the text is UTF-8, and what can be done with a `&mut str` keeps that.
        unsafe { str::from_utf8_unchecked_mut(self.as_mut_bytes()) }
    }

    /// Returns the text as an array. Panics unless `LEN` is [`Self::LEN`](Self::LEN).
    #[inline]
    #[must_use]
    pub const fn as_byte_array<const LEN: usize>(&self) -> &[u8; LEN] {
        assert!(LEN == Self::LEN, "the text has another length");
        // SAFETY: the text has `LEN` bytes, and an array of bytes needs no alignment.
        unsafe { &*self.as_ptr().cast() }
    }

    /// Returns the text as bytes.
    #[inline]
    #[must_use]
    pub const fn as_bytes(&self) -> &[u8] {
        // SAFETY: the text has `LEN` bytes, and is borrowed with `self`.
        unsafe { slice(self.as_ptr(), Self::LEN) }
    }

    /// Returns the text as bytes, which can be changed.
    ///
    /// # Safety
    ///
    /// The bytes must be UTF-8 when the borrow ends.
    #[inline]
    pub unsafe fn as_mut_bytes(&mut self) -> &mut [u8] {
        // SAFETY: the text has `LEN` bytes, and is borrowed with `self`.
        unsafe { core::slice::from_raw_parts_mut(self.as_mut_ptr(), Self::LEN) }
    }

    /// Returns the digits alone as bytes, which can be changed.
    ///
    /// # Safety
    ///
    /// The bytes must be UTF-8 when the borrow ends.
    #[inline]
    pub unsafe fn buffer(&mut self) -> &mut [u8] {
        // SAFETY: the caller promises what `as_mut_bytes` requires.
        unsafe { &mut self.as_mut_bytes()[Self::PREFIX_LEN..] }
    }

    /// Returns a pointer to the text. It can be read while the buffer lives and does not move.
    #[inline]
    #[must_use]
    pub const fn as_ptr(&self) -> *const u8 {
        let first: *const Self = self;
        // SAFETY: without a prefix the text begins with the digits, 2 bytes from the start.
        unsafe { first.cast::<u8>().add(2 - Self::PREFIX_LEN) }
    }

    /// Returns a pointer through which the text can be changed. The text must stay UTF-8.
    #[inline]
    pub fn as_mut_ptr(&mut self) -> *mut u8 {
        let first: *mut Self = self;
        // SAFETY: without a prefix the text begins with the digits, 2 bytes from the start.
        unsafe { first.cast::<u8>().add(2 - Self::PREFIX_LEN) }
    }
}

/// Does and requires what `core::slice::from_raw_parts` does. A constant can call that only from Rust 1.64 on.
const unsafe fn slice<'a>(first: *const u8, count: usize) -> &'a [u8] {
    // SAFETY: a slice is a pointer and then a count. With another layout this would be a compile-time error, since a
    // constant cannot read a pointer as an integer.
    const _: () = assert!(unsafe { transmute::<&[u8], (*const u8, usize)>(b"kiwi") }.1 == 4);
    // SAFETY: the parts are in the order of a slice, and the caller promises the rest.
    unsafe { transmute((first, count)) }
}

/// Implements traits for `Buffer`, each by its method.
macro_rules! impl_traits {
    ($($(#[$doc:meta])* $trait:path: $method:item)+) => {$(
        $(#[$doc])*
        impl<const N: usize, const PREFIX: bool> $trait for Buffer<N, PREFIX> {
            #[inline]
            $method
        }
    )+};
}
impl_traits! {
    Default: fn default() -> Self {
        Self::new()
    }
    /// Prints the text, with the width and the fill of the formatter.
    fmt::Display: fn fmt(&self, f: &mut fmt::Formatter<'_>) -> fmt::Result {
        f.pad(self.as_str())
    }
    fmt::Debug: fn fmt(&self, f: &mut fmt::Formatter<'_>) -> fmt::Result {
        f.debug_tuple("Buffer").field(&self.as_str()).finish()
    }
    AsRef<str>: fn as_ref(&self) -> &str {
        self.as_str()
    }
}
