//! Traits of types that are read from hexadecimal text, or written as it.

#[cfg(feature = "alloc")]
use crate::kernel::encode_append;
use crate::kernel::StackBuffer;
use crate::proved::tables::digits_at;
use crate::FromHexError;
#[cfg(all(feature = "alloc", target_has_atomic = "ptr"))]
use alloc::sync::Arc;
#[cfg(feature = "alloc")]
use alloc::{borrow::Cow, borrow::ToOwned, boxed::Box, rc::Rc, string::String, vec::Vec};
use core::iter::from_fn;

/// Defines the trait `FromHex` and its implementations, over the functions of the module `codec`.
macro_rules! define_from_hex {
    ($(#[$doc:meta])*) => {
        $(#[$doc])*
        pub trait FromHex: Sized {
            /// Why text cannot be read.
            type Error;

            /// Returns the value that text decodes to. The errors of vectors and boxed slices are those of `decode`,
            /// of arrays those of `decode_to_array`, and of `Box<T>`, `Rc<T>`, `Arc<T>` and `Cow<T>` that of what they
            /// hold.
            fn from_hex<T: AsRef<[u8]>>(hex: T) -> Result<Self, Self::Error>;
        }

        impl_from_hex! { [const N: usize] [u8; N], FromHexError, hex => codec::decode_to_array(hex); }
        #[cfg(feature = "alloc")]
        impl_from_hex! {
            [] Vec<u8>, FromHexError, hex => codec::decode(hex);
            [] Box<[u8]>, FromHexError, hex => Vec::from_hex(hex).map(Vec::<u8>::into_boxed_slice);
            [H: FromHex] Box<H>, H::Error, hex => H::from_hex(hex).map(Box::new);
            [H: FromHex] Rc<H>, H::Error, hex => H::from_hex(hex).map(Rc::new);
            #[cfg(target_has_atomic = "ptr")]
            [H: FromHex] Arc<H>, H::Error, hex => H::from_hex(hex).map(Arc::new);
            [H: ToOwned<Owned = O> + ?Sized, O: FromHex] Cow<'_, H>, O::Error, hex => O::from_hex(hex).map(Cow::Owned);
        }
    };
}

/// Implements `FromHex` for types, each with its parameters, its error, and the expression that decodes it.
macro_rules! impl_from_hex {
    ($($(#[$attribute:meta])* [$($parameter:tt)*] $type:ty, $error:ty, $hex:ident => $decode:expr;)+) => {$(
        $(#[$attribute])*
        impl<$($parameter)*> FromHex for $type {
            type Error = $error;

            #[inline(always)]
            fn from_hex<T: AsRef<[u8]>>($hex: T) -> Result<Self, $error> {
                $decode
            }
        }
    )+};
}

pub use unsigned::FromHex;

mod unsigned {
    use super::*;
    use crate as codec;

    define_from_hex! {
        /// A type that is read from hexadecimal text, with or without a prefix: bytes in arrays, vectors and boxes,
        /// and their holders.
        ///
        /// ```
        /// # use const_hex_proved::FromHex;
        /// assert_eq!(<[u8; 4]>::from_hex("0x6B697769"), Ok(*b"kiwi"));
        /// ```
    }
}

pub(crate) mod strict {
    use super::*;
    use crate::strict as codec;

    define_from_hex! {
        /// A type that is read from hexadecimal text without a prefix: bytes in arrays, vectors and boxes, and their
        /// holders.
        ///
        /// ```
        /// # use const_hex_proved::strict::FromHex;
        /// assert_eq!(<[u8; 4]>::from_hex("6B697769"), Ok(*b"kiwi"));
        /// assert!(<[u8; 4]>::from_hex("0x6B697769").is_err());
        /// ```
    }
}

/// The trait [`FromHex`](signed::FromHex) of the crate `const-hex`.
pub mod signed {
    use super::*;
    use crate as codec;

    define_from_hex! {
        /// A type that is read from hexadecimal text, with or without a prefix: bytes or numbers of type `i8` in
        /// arrays, vectors and boxes, and their holders. As an `i8`, a byte from 128 on is negative.
        ///
        /// `Vec::from_hex` cannot tell which vector is meant, so it has to say `Vec::<u8>::from_hex`.
        ///
        /// ```
        /// # use const_hex_proved::traits::signed::FromHex;
        /// assert_eq!(<[i8; 2]>::from_hex("7f80"), Ok([127, -128]));
        /// ```
    }

    impl_from_hex! {
        [const N: usize] [i8; N], FromHexError,
        hex => codec::decode_to_array(hex).map(|bytes: [u8; N]| bytes.map(|byte| byte as i8));
    }
    #[cfg(feature = "alloc")]
    impl_from_hex! {
        [] Vec<i8>, FromHexError,
        hex => codec::decode(hex).map(|bytes| bytes.into_iter().map(|byte| byte as i8).collect());
        [] Box<[i8]>, FromHexError, hex => Vec::from_hex(hex).map(Vec::<i8>::into_boxed_slice);
    }
}

/// Defines a trait with methods without arguments, and implements it for each type with `AsRef<[u8]>`.
macro_rules! define_to_hex {
    (
        $(#[$attribute:meta])* $trait:ident;
        $($(#[$doc:meta])* fn $name:ident $(<$type:ident: $bound:path>)?() -> $result:ty = $function:path;)+
    ) => {
        $(#[$attribute])*
        pub trait $trait {
            $($(#[$doc])* fn $name $(<$type: $bound>)?(&self) -> $result;)+
        }

        impl<B: AsRef<[u8]> + ?Sized> $trait for B {
            $(
                #[inline]
                fn $name $(<$type: $bound>)?(&self) -> $result {
                    $function(self.as_ref())
                }
            )+
        }
    };
}

define_to_hex! {
    /// A value that can be written as hexadecimal text.
    ///
    /// Every type with `AsRef<[u8]>` has this trait: `str`, `String`, `[u8]`, `Vec<u8>`, arrays of bytes.
    ///
    /// ```
    /// # use const_hex_proved::ToHex;
    /// assert_eq!("kiwi".encode_hex::<String>(), "6b697769");
    /// ```
    ToHex;
    /// Returns the digits in order, in lowercase. It allocates if the collection does, and takes up to 4 KiB of stack.
    /// Of more than 2,048 bytes it allocates the text, too, with the feature `alloc`.
    fn encode_hex<T: FromIterator<char>>() -> T = digits::<false, T>;
    /// Does the same as [`encode_hex`](Self::encode_hex) in uppercase.
    fn encode_hex_upper<T: FromIterator<char>>() -> T = digits::<true, T>;
}

#[cfg(feature = "alloc")]
define_to_hex! {
    /// A value that can be written as hexadecimal text, as a `String`.
    ///
    /// Every type with `AsRef<[u8]>` has this trait: `str`, `String`, `[u8]`, `Vec<u8>`, arrays of bytes.
    /// Each method allocates.
    ///
    /// ```
    /// # use const_hex_proved::ToHexExt;
    /// assert_eq!("kiwi".encode_hex(), "6b697769");
    /// assert_eq!("kiwi".encode_hex_upper(), "6B697769");
    /// assert_eq!("kiwi".encode_hex_with_prefix(), "0x6b697769");
    /// assert_eq!("kiwi".encode_hex_upper_with_prefix(), "0x6B697769");
    /// ```
    ToHexExt;
    /// Returns two lowercase digits per byte.
    fn encode_hex() -> String = crate::encode;
    /// Returns two uppercase digits per byte.
    fn encode_hex_upper() -> String = crate::encode_upper;
    /// Returns `0x`, and then two lowercase digits per byte.
    fn encode_hex_with_prefix() -> String = crate::encode_prefixed;
    /// Returns `0x`, and then two uppercase digits per byte.
    fn encode_hex_upper_with_prefix() -> String = crate::encode_upper_prefixed;
}

/// Collects the digits of bytes.
// `flat_map` alone would take 612 instructions in place of 339 for 32 bytes to a `Vec<char>`, and without
// optimization 18602 in place of 5810. A buffer on the stack is copied then, so short input has a smaller one, or none;
// and for one byte, an iterator over the array of its digits would take 1069 in place of 910 then. Three bytes have no
// array of characters, from which LLVM would not see that each is ASCII (rustc 1.95, x86-64).
#[inline]
fn digits<const UPPER: bool, T: FromIterator<char>>(bytes: &[u8]) -> T {
    match bytes.len() {
        1 => digits_of_byte::<UPPER, T>(bytes[0]),
        2 => {
            let [a, b] = digits_at::<true>(UPPER, bytes[0]);
            let [c, d] = digits_at::<true>(UPPER, bytes[1]);
            [character(a), character(b), character(c), character(d)]
                .iter()
                .copied()
                .collect()
        }
        3 => {
            let [a, b] = digits_at::<true>(UPPER, bytes[0]);
            let [c, d] = digits_at::<true>(UPPER, bytes[1]);
            let [e, f] = digits_at::<true>(UPPER, bytes[2]);
            [a, b, c, d, e, f]
                .iter()
                .map(|digit| character(*digit))
                .collect()
        }
        4..=32 => collect_with_buffer::<64, UPPER, T>(bytes),
        33..=2048 => collect_with_buffer::<4096, UPPER, T>(bytes),
        #[cfg(feature = "alloc")]
        _ => {
            let mut text = Vec::new();
            encode_append(bytes, false, UPPER, &mut text);
            text.iter().map(|digit| character(*digit)).collect()
        }
        #[cfg(not(feature = "alloc"))]
        _ => bytes
            .iter()
            .flat_map(|byte| digits_at::<true>(UPPER, *byte))
            .map(character)
            .collect(),
    }
}

/// Does the same for one byte.
#[inline(always)]
fn digits_of_byte<const UPPER: bool, T: FromIterator<char>>(byte: u8) -> T {
    let digits = digits_at::<true>(UPPER, byte);
    let mut index = 0;
    let next = || {
        if index == 2 {
            return None;
        }
        index += 1;
        Some(character(digits[index - 1]))
    };
    from_fn(next).collect()
}

/// Does the same for at most `COUNT` digits, which it writes to a buffer on the stack.
// Not inlined: the calls for fewer digits would have to save registers, too.
#[inline(never)]
fn collect_with_buffer<const COUNT: usize, const UPPER: bool, T: FromIterator<char>>(
    bytes: &[u8],
) -> T {
    StackBuffer::<COUNT>::new()
        .encode(bytes, false, UPPER)
        .iter()
        .map(|digit| character(*digit))
        .collect()
}

/// The digit as a character. The mask shows LLVM that it is ASCII, so that a `String` need not compute its length.
#[inline(always)]
fn character(digit: u8) -> char {
    (digit & 0x7F) as char
}
