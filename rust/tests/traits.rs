//! Printing and the traits: what no line of the table tests.

use const_hex_proved::{display, ToHex};
use std::fmt::Write;

/// Bytes at the limits of a signed number, and their text.
const BYTES: [u8; 4] = [0, 127, 128, 255];
const TEXT: &str = "007f80ff";

/// Without the feature `std`, too.
#[cfg(feature = "core-error")]
#[test]
fn an_error_of_core() {
    let error: &dyn core::error::Error = &const_hex_proved::FromHexError::OddLength;
    assert_eq!(error.to_string(), "odd number of digits");
}

#[test]
fn printing_with_a_width() {
    assert_eq!(format!("{:>20}", display(BYTES)), TEXT);
}

/// A writer of limited capacity. Each call but the last has to pass 4096 characters, and none may follow a failed one.
struct LimitedWriter {
    capacity: Option<usize>,
    is_last: bool,
}

impl Write for LimitedWriter {
    fn write_str(&mut self, text: &str) -> std::fmt::Result {
        assert!(!self.is_last && text.len() <= 4096);
        self.is_last = text.len() < 4096;
        let capacity = self.capacity.expect("no call has failed");
        self.capacity = capacity.checked_sub(text.len());
        self.capacity.map(drop).ok_or(std::fmt::Error)
    }
}

/// Printing stops at the first error of the writer, which is returned.
#[test]
fn calls_and_errors_of_a_writer() {
    for length in [0, 1, 128, 512, 2047, 2048, 2049, 4095, 4096, 40_000] {
        for capacity in [0, 4095, 4096, 32_768, 79_999, 2 * length + 2] {
            let mut writer = LimitedWriter {
                capacity: Some(capacity),
                is_last: false,
            };
            let printed = write!(writer, "{:#}", display(vec![0; length]));
            assert_eq!(printed.is_ok(), capacity >= 2 * length + 2);
        }
    }
}

#[test]
fn collections_of_characters() {
    assert_eq!(BYTES.encode_hex::<std::borrow::Cow<'_, str>>(), TEXT);
    // types without a size
    assert_eq!(<[u8]>::encode_hex::<String>(&BYTES), TEXT);
    assert_eq!(str::encode_hex_upper::<String>("kiwi"), "6B697769");
    let bytes: &dyn AsRef<[u8]> = &BYTES;
    assert_eq!(bytes.encode_hex::<String>(), TEXT);
}

/// One to three bytes, few and more bytes take different code paths, and so do many without `alloc`.
#[test]
fn numbers_of_characters() {
    let bytes: Vec<u8> = (0..2050).map(|index| index as u8).collect();
    for length in (0..100).chain(2046..2051) {
        let bytes = &bytes[..length];
        let characters = bytes.encode_hex::<Vec<char>>();
        assert_eq!(String::from_iter(characters), display(bytes).to_string());
    }
}

#[cfg(feature = "std")]
#[test]
fn errors_of_the_standard_library() {
    use const_hex_proved::secret;

    let error: Box<dyn std::error::Error> = Box::new(const_hex_proved::check("6").unwrap_err());
    assert_eq!(error.to_string(), "odd number of digits");
    let error: Box<dyn std::error::Error> = Box::new(secret::Error::InvalidStringLength);
    assert_eq!(error.to_string(), "invalid string length");
    assert_eq!(
        secret::Error::InvalidHexCharacter.to_string(),
        "invalid character"
    );
}

#[cfg(feature = "alloc")]
mod owned {
    use super::*;
    use const_hex_proved::traits::signed;
    use const_hex_proved::{decode_append, FromHex, FromHexError};
    use std::borrow::Cow;
    use std::rc::Rc;
    use std::sync::Arc;

    const INVALID: FromHexError = FromHexError::InvalidHexCharacter { c: 'z', index: 8 };

    /// Asserts that each type reads the text as this value, and returns the error of an invalid one.
    macro_rules! assert_reads {
        ($from_hex:path; $($kind:ty = $value:expr;)+) => {$(
            assert_eq!(<$kind as $from_hex>::from_hex(TEXT), Ok($value));
            assert_eq!(<$kind as $from_hex>::from_hex("0x007f80zz"), Err(INVALID));
        )+};
    }

    #[test]
    fn types_that_are_read() {
        assert_reads! { FromHex;
            Box<[u8; 4]> = Box::new(BYTES);
            Rc<Vec<u8>> = Rc::new(BYTES.to_vec());
            Arc<[u8; 4]> = Arc::new(BYTES);
            Cow<'_, [u8]> = Cow::Owned(BYTES.to_vec());
            Box<Rc<Vec<u8>>> = Box::new(Rc::new(BYTES.to_vec()));
        }
        let numbers = [0_i8, 127, -128, -1];
        assert_reads! { signed::FromHex;
            Box<[i8]> = numbers.into();
            Rc<[i8; 4]> = Rc::new(numbers);
        }
    }

    /// Nothing is allocated for no bytes, or for an error of the length.
    #[test]
    fn a_full_vector() {
        let mut full = b"kiwi".to_vec();
        full.shrink_to_fit();
        let capacity = full.capacity();
        for (text, expected) in [("0x", Ok(0)), ("0x7", Err(FromHexError::OddLength))] {
            assert_eq!(decode_append(text, &mut full), expected);
            assert_eq!(full.capacity(), capacity);
        }
    }
}
