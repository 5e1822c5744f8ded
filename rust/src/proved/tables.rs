// Made by rust/erase from crates/const_hex_arch/src/tables.rt. Do not edit.
//! The digits of values, and the values of digits.

use crate::std_shim::prelude::*;

/// The digit of each value, in lowercase.
pub const HEX_CHARS_LOWER: &[u8; 16] = b"0123456789abcdef";

/// The digit of each value, in uppercase.
pub const HEX_CHARS_UPPER: &[u8; 16] = b"0123456789ABCDEF";

/// What [`HEX_DECODE_LUT`] has for a byte that is not a digit.
pub const NIL: u8 = 255;

/// The value of each byte that is a digit, in either case, and [`NIL`] for every other byte.
pub const HEX_DECODE_LUT: &[u8; 256] = &[
    NIL, NIL, NIL, NIL, NIL, NIL, NIL, NIL, NIL, NIL, NIL, NIL, NIL, NIL, NIL, NIL, NIL, NIL, NIL,
    NIL, NIL, NIL, NIL, NIL, NIL, NIL, NIL, NIL, NIL, NIL, NIL, NIL, NIL, NIL, NIL, NIL, NIL, NIL,
    NIL, NIL, NIL, NIL, NIL, NIL, NIL, NIL, NIL, NIL, 0, 1, 2, 3, 4, 5, 6, 7, 8, 9, NIL, NIL, NIL,
    NIL, NIL, NIL, NIL, 10, 11, 12, 13, 14, 15, NIL, NIL, NIL, NIL, NIL, NIL, NIL, NIL, NIL, NIL,
    NIL, NIL, NIL, NIL, NIL, NIL, NIL, NIL, NIL, NIL, NIL, NIL, NIL, NIL, NIL, NIL, 10, 11, 12, 13,
    14, 15, NIL, NIL, NIL, NIL, NIL, NIL, NIL, NIL, NIL, NIL, NIL, NIL, NIL, NIL, NIL, NIL, NIL,
    NIL, NIL, NIL, NIL, NIL, NIL, NIL, NIL, NIL, NIL, NIL, NIL, NIL, NIL, NIL, NIL, NIL, NIL, NIL,
    NIL, NIL, NIL, NIL, NIL, NIL, NIL, NIL, NIL, NIL, NIL, NIL, NIL, NIL, NIL, NIL, NIL, NIL, NIL,
    NIL, NIL, NIL, NIL, NIL, NIL, NIL, NIL, NIL, NIL, NIL, NIL, NIL, NIL, NIL, NIL, NIL, NIL, NIL,
    NIL, NIL, NIL, NIL, NIL, NIL, NIL, NIL, NIL, NIL, NIL, NIL, NIL, NIL, NIL, NIL, NIL, NIL, NIL,
    NIL, NIL, NIL, NIL, NIL, NIL, NIL, NIL, NIL, NIL, NIL, NIL, NIL, NIL, NIL, NIL, NIL, NIL, NIL,
    NIL, NIL, NIL, NIL, NIL, NIL, NIL, NIL, NIL, NIL, NIL, NIL, NIL, NIL, NIL, NIL, NIL, NIL, NIL,
    NIL, NIL, NIL, NIL, NIL, NIL, NIL, NIL, NIL, NIL, NIL, NIL, NIL, NIL, NIL, NIL, NIL, NIL, NIL,
    NIL, NIL, NIL,
];

/// Both digits of each byte, in lowercase.
const PAIRS_LOWER: &[u8; 512] = b"\
    000102030405060708090a0b0c0d0e0f\
    101112131415161718191a1b1c1d1e1f\
    202122232425262728292a2b2c2d2e2f\
    303132333435363738393a3b3c3d3e3f\
    404142434445464748494a4b4c4d4e4f\
    505152535455565758595a5b5c5d5e5f\
    606162636465666768696a6b6c6d6e6f\
    707172737475767778797a7b7c7d7e7f\
    808182838485868788898a8b8c8d8e8f\
    909192939495969798999a9b9c9d9e9f\
    a0a1a2a3a4a5a6a7a8a9aaabacadaeaf\
    b0b1b2b3b4b5b6b7b8b9babbbcbdbebf\
    c0c1c2c3c4c5c6c7c8c9cacbcccdcecf\
    d0d1d2d3d4d5d6d7d8d9dadbdcdddedf\
    e0e1e2e3e4e5e6e7e8e9eaebecedeeef\
    f0f1f2f3f4f5f6f7f8f9fafbfcfdfeff";

/// Both digits of each byte, in uppercase.
const PAIRS_UPPER: &[u8; 512] = b"\
    000102030405060708090A0B0C0D0E0F\
    101112131415161718191A1B1C1D1E1F\
    202122232425262728292A2B2C2D2E2F\
    303132333435363738393A3B3C3D3E3F\
    404142434445464748494A4B4C4D4E4F\
    505152535455565758595A5B5C5D5E5F\
    606162636465666768696A6B6C6D6E6F\
    707172737475767778797A7B7C7D7E7F\
    808182838485868788898A8B8C8D8E8F\
    909192939495969798999A9B9C9D9E9F\
    A0A1A2A3A4A5A6A7A8A9AAABACADAEAF\
    B0B1B2B3B4B5B6B7B8B9BABBBCBDBEBF\
    C0C1C2C3C4C5C6C7C8C9CACBCCCDCECF\
    D0D1D2D3D4D5D6D7D8D9DADBDCDDDEDF\
    E0E1E2E3E4E5E6E7E8E9EAEBECEDEEEF\
    F0F1F2F3F4F5F6F7F8F9FAFBFCFDFEFF";

/// The digit of a value below 16, in uppercase or lowercase.
#[inline(always)]
pub const fn digit_at(upper: bool, v: u8) -> u8 {
    if upper {
        HEX_CHARS_UPPER[v as usize]
    } else {
        HEX_CHARS_LOWER[v as usize]
    }
}

/// The value of a digit in either case, or [`NIL`] for a byte that is not a digit.
#[inline(always)]
pub const fn value_at(b: u8) -> u8 {
    HEX_DECODE_LUT[b as usize]
}

/// Whether a byte is a digit, without a look-up.
// Constant time: `is_ascii_hexdigit` would be compiled to branches on the byte. Three times a decimal digit, or five
// times the place of a letter, is below 30. For smaller bytes the subtraction wraps, and the product is far above.
#[inline(always)]
pub fn is_digit(byte: u8) -> bool {
    let decimal = u32::from(byte).wrapping_sub(48);
    let letter = u32::from(byte | 32).wrapping_sub(97);
    decimal.wrapping_mul(3).min(letter.wrapping_mul(5)) < 30
}

/// Both digits of a byte: with `PAIRS` by one look-up in a table of pairs, and else by two in a table of digits.
#[inline(always)]
pub(crate) const fn digits_at<const PAIRS: bool>(upper: bool, b: u8) -> [u8; 2] {
    let index = 2 * b as usize;
    if !PAIRS {
        [digit_at(upper, b / 16), digit_at(upper, b % 16)]
    } else if upper {
        [PAIRS_UPPER[index], PAIRS_UPPER[index + 1]]
    } else {
        [PAIRS_LOWER[index], PAIRS_LOWER[index + 1]]
    }
}
