//! Functions in constants, and the macro. The table tests what they return at run time.

use const_hex_proved::*;

const KIWI: Buffer<4, true> = const_encode(b"kiwi");
const TEXT: &str = KIWI.as_str();
const ARRAY: &[u8; 10] = KIWI.as_byte_array();
const UPPER: Buffer<2> = Buffer::new().const_format_upper(&[0xAB, 0xCD]);

#[test]
fn in_constants() {
    assert_eq!(TEXT, "0x6b697769");
    assert_eq!(ARRAY, b"0x6b697769");
    assert_eq!(UPPER.as_str(), "ABCD");
}

/// Each use of a constant is a new decoder. A pending digit is not shown.
#[test]
fn decoders() {
    const NEW: Decoder = Decoder::new();
    for digit in ["6", "7"] {
        let mut decoder = NEW;
        assert_eq!(decoder.decode(digit, &mut []), Ok(0));
        assert_eq!(format!("{decoder:?}"), "Decoder { position: 1, .. }");
    }
}

/// The macro finds the length. Its own constant does not shadow the one that has the text.
#[test]
fn in_a_macro() {
    const DECODED: &str = "0X6B697769";
    const BYTES: [u8; 4] = hex!(DECODED);
    static PARTS: [&[u8]; 3] = [&hex!(""), &hex!("0x"), &hex!(concat!("6b", "69"))];
    assert_eq!((&BYTES, PARTS), (b"kiwi", [b"" as &[u8], b"", b"ki"]));
}

/// The message of the panic is what the compiler prints for a constant.
#[cfg(panic = "unwind")]
#[test]
fn bytes_of_an_invalid_text() {
    fn message<const N: usize>(text: &[u8]) -> String {
        let panic = std::panic::catch_unwind(|| bytes_of::<N>(text)).unwrap_err();
        let text = panic.downcast_ref::<&str>().map(|text| text.to_string());
        text.unwrap_or_else(|| *panic.downcast().unwrap())
    }
    assert_eq!(message::<2>(b"6b6"), "odd number of digits");
    for text in ["6b", "6b697769"] {
        let expected = "the text has another number of digits";
        assert_eq!(message::<2>(text.as_bytes()), expected);
    }
    for position in [0, 1, 9, 10, 99, 100, 6005, 70_000, 199_999] {
        let mut text = vec![b'7'; 200_000];
        text[position] = b'z';
        let expected = format!("invalid character at position {position}");
        assert_eq!(message::<100_000>(&text), expected);
    }
    assert_eq!(message::<1>(b"0x7z"), "invalid character at position 3");
}
