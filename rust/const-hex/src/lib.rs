//! The names of the crate `const-hex`, over the formally verified source in [`const_hex_proved`].
//!
//! ```
//! # #[cfg(feature = "alloc")] {
//! assert_eq!(const_hex::encode_prefixed("kiwi"), "0x6b697769");
//! assert_eq!(const_hex::decode("0x6B697769"), Ok(b"kiwi".to_vec()));
//! # }
//! let mut buffer = const_hex::Buffer::<4, true>::new();
//! assert_eq!(buffer.format(b"kiwi"), "0x6b697769");
//! ```
//!
//! The features are those of `const-hex`: `std` (by default), `alloc`, `core-error` (needs Rust 1.81), `serde` for
//! `#[serde(with = "const_hex")]`, and `force-generic`, which uses the portable code; `hex`, `nightly` and
//! `portable-simd` have no effect.
#![no_std]
#![forbid(unsafe_code)]
#![warn(missing_docs)]

pub use const_hex_proved::*;

pub use crate::traits::FromHex;

/// Traits of types that are read from hexadecimal text, or written as it.
pub mod traits {
    pub use const_hex_proved::traits::signed::FromHex;
    pub use const_hex_proved::traits::*;
}

#[cfg(feature = "serde")]
#[doc(no_inline)]
pub use crate::serde::deserialize;

/// Fields of hexadecimal text, by `#[serde(with = "const_hex")]`.
#[cfg(feature = "serde")]
pub mod serde {
    pub use const_hex_proved::serde::signed::*;
}
