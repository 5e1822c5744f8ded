//! The names of the crate `hex`, over the formally verified source in [`const_hex_proved`].
//!
//! ```
//! # #[cfg(feature = "alloc")] {
//! assert_eq!(hex::encode("kiwi"), "6b697769");
//! assert_eq!(hex::decode("6b697769"), Ok(b"kiwi".to_vec()));
//! # #[cfg(not(feature = "prefix"))]
//! assert!(hex::decode("0x6b697769").is_err());
//! # }
//! ```
//!
//! The features are those of `hex`: `std` (by default), `alloc`, and `serde` for `#[serde(with = "hex")]`. One is
//! added: `prefix` makes everything that decodes accept one prefix `0x` or `0X`, for all packages of the program.
#![no_std]
#![forbid(unsafe_code)]
#![warn(missing_docs)]

#[cfg(feature = "prefix")]
use const_hex_proved as codec;
#[cfg(not(feature = "prefix"))]
use const_hex_proved::strict as codec;

#[cfg(feature = "alloc")]
pub use codec::decode;
pub use codec::{decode_to_slice, FromHex};
#[cfg(feature = "alloc")]
pub use const_hex_proved::{encode, encode_upper};
pub use const_hex_proved::{encode_to_slice, FromHexError, ToHex};

#[cfg(feature = "serde")]
#[doc(no_inline)]
pub use crate::serde::{deserialize, serialize, serialize_upper};

/// Fields of hexadecimal text without a prefix, by `#[serde(with = "hex")]`.
#[cfg(feature = "serde")]
pub mod serde {
    #[cfg(feature = "prefix")]
    pub use const_hex_proved::serde::no_prefix::*;
    #[cfg(not(feature = "prefix"))]
    pub use const_hex_proved::serde::strict::*;
}
