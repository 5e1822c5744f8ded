//! Fields of hexadecimal text, by `#[serde(with = "const_hex_proved")]`.
//!
//! The text that is written begins with `0x`; [`no_prefix`] writes none. Both read text with or without a
//! prefix. [`strict`] writes none, and rejects one. Each has two more modules: [`option`] for a field that may be
//! nothing, and [`vec`] for a vector of strings. No function here allocates by itself, but a serializer may, and
//! reading a `Vec` does.
//!
//! ```
//! use serde::{Deserialize, Serialize};
//!
//! #[derive(Deserialize, Serialize)]
//! struct Fruit {
//!     #[serde(with = "const_hex_proved")]
//!     name: [u8; 4],
//!     #[serde(with = "const_hex_proved::serde::no_prefix")]
//!     seeds: [u8; 3],
//!     #[serde(with = "const_hex_proved::serde::option")]
//!     stone: Option<[u8; 1]>,
//!     #[serde(with = "const_hex_proved::serde::vec")]
//!     parts: Vec<[u8; 4]>,
//! }
//!
//! let kiwi = Fruit { name: *b"kiwi", seeds: [1, 2, 255], stone: None, parts: vec![*b"skin", *b"pulp"] };
//! let text = r#"{"name":"0x6b697769","seeds":"0102ff","stone":null,"parts":["0x736b696e","0x70756c70"]}"#;
//! assert_eq!(serde_json::to_string(&kiwi)?, text);
//! assert_eq!(serde_json::from_str::<Fruit>(text)?.parts[1], *b"pulp");
//! # Ok::<(), serde_json::Error>(())
//! ```

use crate::display::print;
use crate::kernel::StackBuffer;
use crate::proved::text::ascii_text;
use ::serde::de::{Deserialize, Deserializer, Error, Visitor};
use ::serde::{Serialize, Serializer};
#[cfg(feature = "alloc")]
use alloc::vec::Vec;
use core::fmt;

/// Defines functions that serialize, each by its name, its parameters and its result.
macro_rules! define_serializers {
    ($($(#[$doc:meta])* $name:ident($data:ident: $type:ty), $serializer:ident => $result:expr;)+) => {$(
        $(#[$doc])*
        ///
        /// Returns the serializer's error.
        #[inline]
        pub fn $name<S: Serializer, T: AsRef<[u8]>>($data: $type, $serializer: S) -> Result<S::Ok, S::Error> {
            $result
        }
    )+};
}

/// Defines the function `deserialize` for a type over any `T` that implements a trait.
macro_rules! define_deserializer {
    ($(#[$doc:meta])* $type:ty, $from_hex:path: $deserializer:ident => $read:expr) => {
        $(#[$doc])*
        ///
        /// Returns the deserializer's error for a value of another kind, and for text from which the type cannot be
        /// read. In the second case it has the message of the type's error.
        pub fn deserialize<'de, D: Deserializer<'de>, T: $from_hex>($deserializer: D) -> Result<$type, D::Error>
        where
            T::Error: fmt::Display,
        {
            $read
        }
    };
}

/// Defines the functions of a module, which write a prefix or none, and deserialize by a trait. The strings say so.
macro_rules! define_functions {
    ($prefix:literal $written:literal, $from_hex:path: $read:literal) => {
        define_serializers! {
            #[doc = concat!("Serializes bytes as ", $written, "lowercase digits.")]
            serialize(data: T), serializer => Digits::<false, $prefix>(data.as_ref()).serialize(serializer);
            #[doc = concat!("Serializes bytes as ", $written, "uppercase digits.")]
            serialize_upper(data: T), serializer => Digits::<true, $prefix>(data.as_ref()).serialize(serializer);
        }
        define_deserializer! {
            #[doc = concat!("Deserializes text, ", $read, " a prefix.")]
            T, $from_hex: deserializer => FromText::deserialize(deserializer).map(|FromText(value)| value)
        }

        /// A value that is deserialized from a string.
        struct FromText<T>(T);

        impl<'de, T: $from_hex> Deserialize<'de> for FromText<T>
        where
            T::Error: fmt::Display,
        {
            fn deserialize<D: Deserializer<'de>>(deserializer: D) -> Result<Self, D::Error> {
                deserializer.deserialize_str(TextVisitor(
                    #[inline(always)]
                    |text: &[u8]| T::from_hex(text).map(FromText),
                ))
            }
        }

        /// Fields that have text or nothing, which is `null` in JSON. If a field may also be missing, add
        /// `default` to its attribute.
        pub mod option {
            use super::*;

            define_serializers! {
                #[doc = concat!("Serializes bytes, if there are any, as ", $written, "lowercase digits.")]
                serialize(data: &Option<T>), serializer =>
                    data.as_ref().map(|data| Digits::<false, $prefix>(data.as_ref())).serialize(serializer);
            }
            define_deserializer! {
                #[doc = concat!("Deserializes text, ", $read, " a prefix, or nothing.")]
                Option<T>, $from_hex: deserializer => Ok(Option::deserialize(deserializer)?.map(|FromText(value)| value))
            }
        }

        /// Fields that have a vector of strings.
        #[cfg(feature = "alloc")]
        pub mod vec {
            use super::*;

            define_serializers! {
                #[doc = concat!("Serializes each element as ", $written, "lowercase digits.")]
                serialize(data: &[T]), serializer =>
                    serializer.collect_seq(data.iter().map(|data| Digits::<false, $prefix>(data.as_ref())));
            }
            define_deserializer! {
                #[doc = concat!("Deserializes strings, each ", $read, " a prefix. Allocates.")]
                Vec<T>, $from_hex:
                deserializer => Ok(Vec::deserialize(deserializer)?.into_iter().map(|FromText(value)| value).collect())
            }
        }
    };
}

define_functions! { true "`0x` and ", crate::FromHex: "with or without" }

pub mod no_prefix {
    //! Fields of text that is written without a prefix, by `#[serde(with = "const_hex_proved::serde::no_prefix")]`.

    use super::*;
    define_functions! { false "", crate::FromHex: "with or without" }
}

pub mod strict {
    //! Fields of text without a prefix, by `#[serde(with = "const_hex_proved::serde::strict")]`.

    use super::*;
    define_functions! { false "", crate::strict::FromHex: "without" }
}

/// The module `serde` of the crate `const-hex`, which also reads arrays, vectors and boxes of `i8`.
pub mod signed {
    use super::*;
    define_functions! { true "`0x` and ", crate::traits::signed::FromHex: "with or without" }

    /// Fields of text that is written without a prefix.
    pub mod no_prefix {
        use super::*;
        define_functions! { false "", crate::traits::signed::FromHex: "with or without" }
    }
}

/// Bytes that are written as text.
struct Digits<'a, const UPPER: bool, const PREFIX: bool>(&'a [u8]);

impl<const UPPER: bool, const PREFIX: bool> Serialize for Digits<'_, UPPER, PREFIX> {
    #[inline]
    fn serialize<S: Serializer>(&self, serializer: S) -> Result<S::Ok, S::Error> {
        // Longer text is formatted by the serializer. Short text would take 150 instructions more (rustc 1.95, x86-64).
        match self.0.len() <= 128 {
            true => {
                let mut buffer = StackBuffer::<{ 2 + 2 * 128 }>::new();
                serializer.serialize_str(ascii_text(buffer.encode(self.0, PREFIX, UPPER)))
            }
            false => serializer.collect_str(self),
        }
    }
}

impl<const UPPER: bool, const PREFIX: bool> fmt::Display for Digits<'_, UPPER, PREFIX> {
    fn fmt(&self, f: &mut fmt::Formatter<'_>) -> fmt::Result {
        print::<UPPER, PREFIX>(self.0, f)
    }
}

/// Decodes a string by a function.
struct TextVisitor<F>(F);

impl<T, E: fmt::Display, F: Fn(&[u8]) -> Result<T, E>> Visitor<'_> for TextVisitor<F> {
    type Value = T;

    fn expecting(&self, f: &mut fmt::Formatter<'_>) -> fmt::Result {
        f.write_str("a hex encoded string")
    }

    // Inlining saves up to 25 instructions (rustc 1.95, x86-64). The shim of a `FnOnce` would not be inlined.
    #[inline(always)]
    fn visit_str<M: Error>(self, text: &str) -> Result<T, M> {
        self.visit_bytes(text.as_bytes())
    }

    #[inline(always)]
    fn visit_bytes<M: Error>(self, text: &[u8]) -> Result<T, M> {
        (self.0)(text).map_err(M::custom)
    }
}
