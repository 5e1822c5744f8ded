//! Printing, which does not allocate.

use crate::kernel::StackBuffer;
use crate::proved::ascii_text;
use core::fmt;

/// Returns a value that prints the digits of bytes. Does not allocate.
///
/// `{}` and `{:x}` print them in lowercase, `{:X}` in uppercase. `#` writes `0x` before them. Width and fill
/// are ignored. If the formatter returns an error, printing stops and returns it.
///
/// ```
/// # use const_hex_proved::display;
/// assert_eq!(format!("{}", display("kiwi")), "6b697769");
/// assert_eq!(format!("{:#X}", display("kiwi")), "0x6B697769");
/// ```
#[inline]
pub fn display<T: AsRef<[u8]>>(input: T) -> impl fmt::Display + fmt::LowerHex + fmt::UpperHex {
    Digits(input)
}

/// Bytes whose digits are printed.
struct Digits<T>(T);

macro_rules! impl_format {
    ($($format:ident $upper:literal)*) => {$(
        impl<T: AsRef<[u8]>> fmt::$format for Digits<T> {
            fn fmt(&self, f: &mut fmt::Formatter<'_>) -> fmt::Result {
                match f.alternate() {
                    true => print::<$upper, true>(self.0.as_ref(), f),
                    false => print::<$upper, false>(self.0.as_ref(), f),
                }
            }
        }
    )*};
}
impl_format! { Display false LowerHex false UpperHex true }

/// Prints the digits of bytes, and `0x` before them if `PREFIX` is true. Each call of the formatter but the last writes
/// 4096 characters. Empty text makes no call, and no call follows an error.
// The prefix takes as much space as one byte. LLVM appends text of a known length to a `String` without a call.
#[inline(always)]
pub(crate) fn print<const UPPER: bool, const PREFIX: bool>(
    bytes: &[u8],
    f: &mut fmt::Formatter<'_>,
) -> fmt::Result {
    match bytes.len() + usize::from(PREFIX) {
        0 => Ok(()),
        1 => write_with_buffer::<2, UPPER, PREFIX>(bytes, f),
        2..=128 => write_with_buffer::<256, UPPER, PREFIX>(bytes, f),
        _ => print_long::<UPPER, PREFIX>(bytes, f),
    }
}

/// Does the same by one call of the formatter, for text of at most `N` characters.
fn write_with_buffer<const N: usize, const UPPER: bool, const PREFIX: bool>(
    bytes: &[u8],
    f: &mut fmt::Formatter<'_>,
) -> fmt::Result {
    let mut buffer = StackBuffer::<N>::new();
    f.write_str(ascii_text(buffer.encode(bytes, PREFIX, UPPER)))
}

/// Does the same for more than 256 characters. Up to 1024 have a smaller buffer, which is copied without optimization.
#[inline(never)]
fn print_long<const UPPER: bool, const PREFIX: bool>(
    bytes: &[u8],
    f: &mut fmt::Formatter<'_>,
) -> fmt::Result {
    if bytes.len() < 512 {
        return write_with_buffer::<1024, UPPER, PREFIX>(bytes, f);
    }
    let (first, rest) = bytes.split_at(bytes.len().min(2048 - usize::from(PREFIX)));
    write_with_buffer::<4096, UPPER, PREFIX>(first, f)?;
    let mut chunks = rest.chunks_exact(2048);
    chunks.try_for_each(|chunk| write_with_buffer::<4096, UPPER, false>(chunk, f))?;
    print::<UPPER, false>(chunks.remainder(), f)
}
