//! The functions that decode and check.

use super::lines::{error_of_secret, fill_secret, Line, CANARY};
use const_hex_proved::FromHexError::{self, *};
use const_hex_proved::*;
use std::io::Read;

type Decoded = Result<Vec<u8>, FromHexError>;

pub fn read(line: &Line) {
    let text = &line.input[..];
    assert_all!(line, line.result;
        decode(text), Vec::<u8>::from_hex(text), <Box<[u8]>>::from_hex(text).map(Vec::from),
        append(text, 4), append(text, 4 + text.len()),
    );
    assert_all!(line, line.checked(); check(text), const_check(text));
    let strict = without_prefix(line, text.len() / 2);
    assert_all!(line, strict; strict::decode(text), <Vec<u8> as strict::FromHex>::from_hex(text));
    assert_all!(line, strict.map(drop); strict::check(text));
    let count = (text.len() - line.prefix()) / 2;
    assert_all!(line, line.result; line.fill(count, |output| decode_to_slice(text, output)));
    for space in [0, 1, 70] {
        let mut output = vec![CANARY; count + space];
        assert_all!(line, line.result; decode_to_front(text, &mut output).map(|count| output[..count].to_vec()));
        assert_eq!(output[count..], vec![CANARY; space]);
    }
    if count > 0 && line.result != Err(OddLength) {
        let too_small = &mut vec![0; count - 1];
        assert_all!(line, Err(InvalidStringLength); decode_to_front(text, too_small));
    }
    read_without_prefix(line, count);
    // A decoder reports an invalid character before an odd length.
    if line.result != Err(OddLength) {
        read_chunks(line);
    }
}

/// What the module `strict` returns for an output of this length: the `x` of a prefix is an invalid character there.
fn without_prefix(line: &Line, length: usize) -> Decoded {
    match (line.input.len(), line.prefix()) {
        (size, _) if size % 2 == 1 => Err(OddLength),
        (size, _) if size != 2 * length => Err(InvalidStringLength),
        (_, 0) => line.result.clone(),
        _ => Err(InvalidHexCharacter {
            c: line.input[1].into(),
            index: 1,
        }),
    }
}

/// `strict` and `secret`, which rejects the same.
fn read_without_prefix(line: &Line, length: usize) {
    let (text, expected) = (&line.input[..], without_prefix(line, length));
    assert_all!(line, expected; line.fill(length, |output| strict::decode_to_slice(text, output)));
    assert_all!(line, expected.map_err(error_of_secret);
        fill_secret(length, |output| secret::decode_to_slice(text, output)));
}

/// Appends to a vector, whose old bytes are unchanged, and which has no more after an error.
fn append(text: &[u8], capacity: usize) -> Decoded {
    let mut vector = Vec::with_capacity(capacity);
    vector.extend(b"kiwi");
    let result = decode_append(text, &mut vector);
    let bytes = vector.split_off(4);
    assert_eq!(
        (&vector[..], bytes.len()),
        (&b"kiwi"[..], result.unwrap_or(0))
    );
    result.map(|_| bytes)
}

pub fn read_into(line: &Line, length: usize) {
    assert_all!(line, line.result; line.fill(length, |output| decode_to_slice(&line.input, output)));
    read_without_prefix(line, length);
    with_const!(length, N => read_array::<N>(line));
}

fn read_array<const N: usize>(line: &Line) {
    let text = &line.input[..];
    assert_all!(line, line.result.as_ref().map(|bytes| bytes[..].try_into().unwrap()).map_err(|error| *error);
        decode_to_array::<_, N>(text), <[u8; N]>::from_hex(text), const_decode_to_array(text));
    let strict = without_prefix(line, N);
    assert_all!(line, strict;
        strict::decode_to_array::<_, N>(text).map(Vec::from),
        <[u8; N] as strict::FromHex>::from_hex(text).map(Vec::from),
        <Box<[u8; N]> as strict::FromHex>::from_hex(text).map(|bytes| bytes.to_vec()),
    );
    let secret = strict.map_err(error_of_secret);
    assert_all!(line, secret; secret::decode_to_array::<_, N>(text).map(Vec::from));
}

pub fn read_digits(line: &Line) {
    let text = &line.input[..];
    assert_all!(line, line.string() == "true"; check_raw(text), const_check_raw(text));
}

/// The bytes that are digits, at each index of a text.
pub fn each_byte(line: &Line) {
    for index in 0..line.input.len() {
        let mut text = line.input.clone();
        let mut accepted = |check: fn(&[u8]) -> bool| -> String {
            let is_digit = |byte: &u8| {
                text[index] = *byte;
                check(&text)
            };
            (0..=255).filter(is_digit).map(char::from).collect()
        };
        let secret = |text: &[u8]| secret::decode_to_array::<_, 32>(text).is_ok();
        assert_all!(line, line.string();
            accepted(|text| check_raw(text)), accepted(const_check_raw), accepted(secret),
            accepted(|text| check(text).is_ok()),
            accepted(|text| const_check(text).is_ok()),
        );
    }
}

pub fn message(line: &Line, length: Option<usize>) {
    let text = &line.input[..];
    let message = |result: Result<(), FromHexError>| result.unwrap_err().to_string();
    match length {
        Some(length) => {
            assert_all!(line, line.string(); message(decode_to_slice(text, &mut vec![0; length])));
        }
        None => {
            assert_all!(line, line.string(); message(check(text)), message(decode(text).map(drop)))
        }
    }
}

/// A text in two chunks, split at each index or, if it is long, at some, and in single bytes or small chunks.
pub fn read_chunks(line: &Line) {
    let text = &line.input[..];
    let step = if text.len() < 10_000 { 1 } else { 100_003 };
    for cut in (0..=text.len()).step_by(step) {
        assert_all!(line, line.result; decode_chunks(&[&text[..cut], &text[cut..]]));
    }
    let small: Vec<&[u8]> = text.chunks(step.min(4099)).collect();
    assert_all!(line, line.result; decode_chunks(&small), read_all(text));
}

/// The bytes that chunks decode to.
fn decode_chunks(chunks: &[&[u8]]) -> Decoded {
    let (mut decoder, mut bytes) = (Decoder::new(), Vec::new());
    for chunk in chunks {
        let mut output = vec![0; (chunk.len() + 1) / 2];
        let count = decoder.decode(chunk, &mut output)?;
        bytes.extend_from_slice(&output[..count]);
    }
    decoder.finish().map(|()| bytes)
}

/// What a reader of the text returns.
fn read_all(text: &[u8]) -> Decoded {
    let mut bytes = Vec::new();
    match DecodeReader::new(text).read_to_end(&mut bytes) {
        Ok(_) => Ok(bytes),
        Err(error) => Err(*error.get_ref().unwrap().downcast_ref().unwrap()),
    }
}
