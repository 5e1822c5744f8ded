//! Differential test: the same random inputs to this package and to the crate `hex`. Every result is equal, except for
//! what the README of the package `hex` lists. Prefixes are rejected by the module `strict` alone.
#![cfg(feature = "alloc")]

mod random;

use const_hex_proved::{encode, encode_to_slice, encode_upper, strict};
use random::Random;
use std::fmt::Debug;

/// An error, whose name and fields are the same in both.
fn shown(error: impl Debug) -> String {
    format!("{error:?}")
}

/// What a call returns and writes to an output of a length. After an invalid character the output is not compared: it may
/// have any number of the bytes before it.
fn filled<E: Debug>(
    length: usize,
    call: impl FnOnce(&mut [u8]) -> Result<(), E>,
) -> (Result<(), String>, Vec<u8>) {
    let mut output = vec![0xEE; length];
    let result = call(&mut output).map_err(shown);
    if matches!(&result, Err(error) if error.starts_with("InvalidHexCharacter")) {
        output.clear();
    }
    (result, output)
}

#[test]
fn random_inputs() {
    let mut random = Random(88172645463325252);
    for _ in 0..20_000 {
        let (bytes, text) = (&random.bytes(), &random.text());
        assert_eq!(encode(bytes), hex::encode(bytes));
        assert_eq!(encode_upper(bytes), hex::encode_upper(bytes));
        for length in [2 * bytes.len(), random.below(900)] {
            assert_eq!(
                filled(length, |output| encode_to_slice(bytes, output)),
                filled(length, |output| hex::encode_to_slice(bytes, output))
            );
        }
        assert_eq!(
            strict::decode(text).map_err(shown),
            hex::decode(text).map_err(shown)
        );
        for length in [text.len() / 2, random.below(200)] {
            assert_eq!(
                filled(length, |output| strict::decode_to_slice(text, output)),
                filled(length, |output| hex::decode_to_slice(text, output))
            );
        }
    }
}
