// Made by rust/erase from the examples of the source. Do not edit.

use crate::proved::*;
use crate::proved::examples as const_hex;
use crate::std_shim::prelude::*;

#[test]
fn arch_by_length_bylength() {
    let mut text = [0; 8];
    CheckFirst::<Plain>::fill(b"kiwi", false, &mut text);
    assert_eq!(text, *b"6b697769");
}

#[test]
fn arch_check_first_checkfirst() {
    let mut bytes = [0; 2];
    assert!(!CheckFirst::<Plain>::decode_checked(b"6bzz", &mut bytes));
    assert_eq!(bytes, [0; 2]);
}

#[test]
fn arch_plain_plain() {
    let mut bytes = [0; 2];
    assert!(!Plain::decode_checked(b"6bzz", &mut bytes));
    assert_eq!(bytes, [0x6b, 0]);
}

#[test]
fn arch_plain_compact() {
    let mut text = [0; 4];
    Compact::fill(b"ki", false, &mut text);
    assert_eq!(text, *b"6b69");
}

#[test]
fn arch_fixedkernel() {
    assert!(FixedKernel::check(b"6b697769"));
}

#[test]
fn arch_kernel() {
    fn read<K: Kernel>(text: &[u8; 8]) -> Option<[u8; 4]> {
        let mut bytes = [0; 4];
        if K::decode_checked(text, &mut bytes) { Some(bytes) } else { None }
    }
    assert_eq!(read::<Plain>(b"6b697769"), Some(*b"kiwi"));
    assert_eq!(read::<CheckFirst::<Plain>>(b"6b69776g"), None);
}

#[test]
fn arch_fill() {
    let mut text = [0; 8];
    FixedKernel::fill(b"kiwi", false, &mut text);
    assert_eq!(text, *b"6b697769");
}

#[test]
fn arch_check() {
    assert!(FixedKernel::check(b"6B6"));
    assert!(!FixedKernel::check(b"0x6b"));
}

#[test]
fn arch_decode_checked() {
    let mut bytes = [0; 4];
    assert!(FixedKernel::decode_checked(b"6B697769", &mut bytes));
    assert_eq!(bytes, *b"kiwi");
}

#[test]
fn arch_decode_all() {
    let mut bytes = [0; 4];
    assert!(FixedKernel::decode_all(b"6B697769", &mut bytes));
    assert_eq!(bytes, *b"kiwi");
    assert!(!FixedKernel::decode_all(b"6B69776g", &mut bytes));
}

#[test]
fn arch_decode_unchecked() {
    let mut bytes = [0; 4];
    FixedKernel::decode_unchecked(b"6b697769", &mut bytes);
    assert_eq!(bytes, *b"kiwi");
}

#[test]
fn tables_hex_chars_lower() {
    assert_eq!(HEX_CHARS_LOWER[11], b'b');
}

#[test]
fn tables_hex_chars_upper() {
    assert_eq!(HEX_CHARS_UPPER[11], b'B');
}

#[test]
fn tables_nil() {
    assert_eq!(HEX_DECODE_LUT[usize::from(b'g')], NIL);
}

#[test]
fn tables_hex_decode_lut() {
    assert_eq!(HEX_DECODE_LUT[usize::from(b'B')], 11);
}

#[test]
fn tables_digit_at() {
    assert_eq!(const_hex::digit_at(false, 11), b'b');
    assert_eq!(const_hex::digit_at(true, 11), b'B');
}

#[test]
fn tables_value_at() {
    assert_eq!(const_hex::value_at(b'B'), 11);
    assert_eq!(const_hex::value_at(b'g'), const_hex::NIL);
}

#[test]
fn tables_is_digit() {
    assert!(is_digit(b'B'));
    assert!(!is_digit(b'g'));
}

#[test]
fn text_text_length() {
    assert_eq!(text_length(true, 20), 42);
    assert_eq!(text_length(false, usize::MAX), usize::MAX);
}

#[test]
fn text_fill_text() {
    let mut text = [0; 10];
    fill_text::<Plain>(b"kiwi", true, false, &mut text);
    assert_eq!(text, *b"0x6b697769");
}

#[test]
fn text_ascii_text() {
    assert_eq!(ascii_text(b"0x6b"), "0x6b");
}

#[test]
fn codec_checks_check() {
    assert_eq!(const_hex::check(b"0x6b"), Ok(()));
    assert_eq!(const_hex::check(b"6b6"), Err(FromHexError::OddLength));
}

#[test]
fn codec_checks_check_with() {
    assert_eq!(const_hex::check_with::<Plain>(b"0X6B"), Ok(()));
}

#[test]
fn codec_checks_const_check() {
    let error = FromHexError::InvalidHexCharacter { c: 'z', index: 2 };
    assert_eq!(const_hex::const_check(b"0xzz"), Err(error));
}

#[test]
fn codec_checks_check_raw() {
    assert!(const_hex::check_raw(b"6b6"));
    assert!(!const_hex::check_raw(b"0x6b"));
}

#[test]
fn codec_checks_const_check_raw() {
    assert!(const_hex::const_check_raw(b"6B6"));
}

#[test]
fn codec_decoder_decoder() {
    let mut decoder = Decoder::new();
    let mut bytes = [0; 4];
    assert_eq!(decoder.decode(b"0x6b6", &mut bytes), Ok(1));
    assert_eq!(decoder.decode(b"97769", &mut bytes[1..]), Ok(3));
    assert_eq!(decoder.finish(), Ok(()));
    assert_eq!(&bytes, b"kiwi");
}

#[test]
fn codec_decoder_new() {
    assert_eq!(Decoder::new().finish(), Ok(()));
}

#[test]
fn codec_decoder_decode() {
    let mut decoder = Decoder::new();
    assert_eq!(decoder.decode(b"6b69", &mut [0; 2]), Ok(2));
    let error = FromHexError::InvalidHexCharacter { c: 'x', index: 5 };
    assert_eq!(decoder.decode(b"0x77", &mut [0; 2]), Err(error));
    assert_eq!(decoder.decode(b"77", &mut [0; 2]), Err(error));
}

#[test]
fn codec_decoder_decode_with() {
    let mut decoder = Decoder::new();
    assert_eq!(decoder.decode_with::<Plain>(b"0X6", &mut [0; 1]), Ok(0));
    assert_eq!(decoder.decode_with::<CheckFirst::<Plain>>(b"B", &mut [0; 1]), Ok(1));
}

#[test]
fn codec_decoder_check() {
    let mut decoder = Decoder::new();
    assert_eq!(decoder.check(b"0x6b6"), Ok(()));
    let error = FromHexError::InvalidHexCharacter { c: 'z', index: 5 };
    assert_eq!(decoder.check(b"z"), Err(error));
    assert_eq!(decoder.finish(), Err(error));
}

#[test]
fn codec_decoder_finish() {
    let mut decoder = Decoder::new();
    assert_eq!(decoder.decode(b"6b6", &mut [0; 2]), Ok(1));
    assert_eq!(decoder.finish(), Err(FromHexError::OddLength));
}

#[test]
fn codec_decoder_position() {
    let mut decoder = Decoder::new();
    assert_eq!(decoder.decode(b"0x6b6", &mut [0; 2]), Ok(1));
    assert_eq!(decoder.position(), 5);
}

#[test]
fn codec_decoders_decode_to_slice() {
    let mut bytes = [0; 4];
    const_hex::decode_to_slice(b"6b697769", &mut bytes).unwrap();
    assert_eq!(&bytes, b"kiwi");
}

#[test]
fn codec_decoders_decode_to_slice_with() {
    let mut bytes = [0; 4];
    const_hex::decode_to_slice_with::<Plain>(b"0X6B697769", &mut bytes).unwrap();
    assert_eq!(&bytes, b"kiwi");
}

#[test]
fn codec_decoders_decode_to_front() {
    let mut bytes = *b"......";
    assert_eq!(const_hex::decode_to_front(b"0x6b697769", &mut bytes), Ok(4));
    assert_eq!(&bytes, b"kiwi..");
}

#[test]
fn codec_decoders_decode_to_front_with() {
    let mut bytes = *b"......";
    assert_eq!(const_hex::decode_to_front_with::<Plain>(b"6B697769", &mut bytes), Ok(4));
    assert_eq!(&bytes, b"kiwi..");
}

#[test]
fn codec_decoders_decode_to_array() {
    let bytes = const_hex::decode_to_array::<4>(b"0x6b697769").unwrap();
    assert_eq!(&bytes, b"kiwi");
}

#[test]
fn codec_decoders_const_decode_to_array() {
    let bytes = const_hex::const_decode_to_array::<4>(b"6B697769").unwrap();
    assert_eq!(&bytes, b"kiwi");
}

#[test]
fn codec_decoders_bytes_of() {
    let bytes: [u8; 4] = const_hex::bytes_of(b"0x6b697769");
    assert_eq!(&bytes, b"kiwi");
}

#[test]
fn codec_encoders_encode_to_slice() {
    let mut text = [0; 8];
    const_hex::encode_to_slice(b"kiwi", &mut text).unwrap();
    assert_eq!(&text, b"6b697769");
}

#[test]
fn codec_encoders_encode_to_slice_upper() {
    let mut text = [0; 8];
    const_hex::encode_to_slice_upper(b"kiwi", &mut text).unwrap();
    assert_eq!(&text, b"6B697769");
}

#[test]
fn codec_encoders_encode_full_to_slice() {
    let mut text = [0; 10];
    const_hex::encode_full_to_slice(b"kiwi", true, false, &mut text).unwrap();
    assert_eq!(&text, b"0x6b697769");
}

#[test]
fn codec_encoders_encode_full_to_slice_with() {
    let mut text = [0; 8];
    const_hex::encode_full_to_slice_with::<Plain>(b"kiwi", false, true, &mut text).unwrap();
    assert_eq!(&text, b"6B697769");
}

#[test]
fn codec_encoders_encode_to_str() {
    let mut output = [0; 8];
    assert_eq!(const_hex::encode_to_str(b"kiwi", &mut output).unwrap(), "6b697769");
}

#[test]
fn codec_encoders_encode_to_str_upper() {
    let mut output = [0; 8];
    assert_eq!(const_hex::encode_to_str_upper(b"kiwi", &mut output).unwrap(), "6B697769");
}

#[test]
fn error_fromhexerror() {
    let error = const_hex::check(b"0xzz").unwrap_err();
    assert_eq!(error, FromHexError::InvalidHexCharacter { c: 'z', index: 2 });
}
