//! What the proved source uses of Rattle's standard library and of `const_hex`, over Rust's and over the crate.

pub use std::process;

/// The capability to open files and to write to standard error, which `main` passes to the proved code.
pub struct System;

impl io::Eprint for System {}

/// What each proved file uses without a path.
pub mod prelude {}

pub mod io {
    pub use std::io::*;

    pub trait Eprint {
        /// Writes a line to standard error, by one call.
        fn print_line(&self, line: String) -> Result<()> {
            stderr().write_all((line + "\n").as_bytes())
        }
    }
}

/// Prints a line to standard error, and returns whether that succeeded.
macro_rules! eprintln {
    ($host:expr; $($line:tt)*) => {
        crate::std_shim::io::Eprint::print_line($host, format!($($line)*))
    };
}

pub mod codec {
    pub use const_hex_proved::{Decoder, FromHexError};

    /// Stands for a kernel. The crate chooses its own.
    pub struct FixedKernel;

    /// Fills the output with the text of the input, after `0x` if a prefix is wanted. It is proved of the caller that
    /// the output has this length.
    pub fn fill_text<K>(input: &[u8], prefix: bool, upper: bool, output: &mut [u8]) {
        let filled = match (prefix, upper) {
            (false, false) => const_hex_proved::encode_to_slice(input, output),
            (false, true) => const_hex_proved::encode_to_slice_upper(input, output),
            (true, false) => const_hex_proved::encode_to_slice_prefixed(input, output),
            (true, true) => const_hex_proved::encode_to_slice_upper_prefixed(input, output),
        };
        filled.expect("the output has the length of the text");
    }
}

pub mod simd {
    pub mod prelude {
        pub use super::u8x32;
    }

    /// The sign bit of each byte.
    const SIGNS: u64 = 0x8080_8080_8080_8080;

    /// A vector of 32 bytes by SWAR (SIMD within a register). The first byte is the lowest of the first word.
    #[allow(non_camel_case_types)]
    #[derive(Clone, Copy)]
    pub struct u8x32([u64; 4]);

    /// A SWAR mask: the sign bit of each byte is the result of a comparison in its lane. All other bits are 0.
    pub struct Mask([u64; 4]);

    impl u8x32 {
        /// Returns the first 32 bytes. It is proved that callers pass as many.
        #[inline(always)]
        pub fn from_slice(slice: &[u8]) -> u8x32 {
            let mut words = [0; 4];
            for (word, bytes) in words.iter_mut().zip(slice[..32].chunks_exact(8)) {
                *word = u64::from_le_bytes(bytes.try_into().expect("8 bytes"));
            }
            u8x32(words)
        }

        /// Writes the bytes to the front of a slice. It is proved of the caller that it has space for them.
        #[inline(always)]
        pub fn copy_to_slice(self, slice: &mut [u8]) {
            for (bytes, word) in slice[..32].chunks_exact_mut(8).zip(self.0) {
                bytes.copy_from_slice(&word.to_le_bytes());
            }
        }

        #[inline(always)]
        pub fn splat(value: u8) -> u8x32 {
            u8x32([u64::from_ne_bytes([value; 8]); 4])
        }

        #[inline(always)]
        pub fn simd_lt(self, other: u8x32) -> Mask {
            let mut less = [0; 4];
            for (word, (x, y)) in less.iter_mut().zip(self.0.iter().zip(other.0)) {
                // No byte borrows from the next, since x has all sign bits here, and y none. A byte keeps its sign bit
                // unless the lower seven bits of x are less than those of y.
                let lower = !(x | SIGNS).wrapping_sub(y & !SIGNS);
                *word = (!x & y | !(x ^ y) & lower) & SIGNS;
            }
            Mask(less)
        }
    }

    impl Mask {
        /// Returns the mask in place of a number with a bit for each lane, the lowest for the first. The proved source
        /// only compares that number with 0 and counts its trailing zeros, which the mask can do.
        #[inline(always)]
        pub fn to_bitmask(self) -> Mask {
            self
        }

        /// Returns the index of the first lane that is set, or 32.
        #[inline(always)]
        pub fn trailing_zeros(self) -> u32 {
            let [first, second, third, fourth] = self.0.map(u128::from);
            match (first | second << 64, third | fourth << 64) {
                (0, high) => 16 + high.trailing_zeros() / 8,
                (low, _) => low.trailing_zeros() / 8,
            }
        }
    }

    impl PartialEq<u64> for Mask {
        /// Whether no lane is set. `zero` is 0.
        #[inline(always)]
        fn eq(&self, zero: &u64) -> bool {
            self.0.iter().fold(0, |all, word| all | word) == *zero
        }
    }
}

#[cfg(test)]
mod tests {
    use super::simd::u8x32;

    /// Each pair of bytes, in each lane.
    #[test]
    fn lesser_lanes() {
        for x in 0..=255 {
            for y in 0..=255 {
                let every = u8x32::splat(x).simd_lt(u8x32::splat(y)).to_bitmask();
                assert_eq!(every == 0, x >= y);
                assert_eq!(every.trailing_zeros(), if x < y { 0 } else { 32 });
            }
            for lane in 0..32 {
                let mut bytes = [255; 33];
                bytes[lane..].fill(x);
                let block = u8x32::from_slice(&bytes);
                let lesser = block.simd_lt(u8x32::splat(255)).to_bitmask();
                let first = if x < 255 { lane as u32 } else { 32 };
                assert_eq!(lesser.trailing_zeros(), first);
                let mut copied = [0; 33];
                block.copy_to_slice(&mut copied);
                assert_eq!((&copied[..32], copied[32]), (&bytes[..32], 0));
            }
        }
    }
}
