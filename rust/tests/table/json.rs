//! The functions of the module `serde`, by JSON.

use super::lines::Line;
use const_hex_proved::serde::{deserialize, no_prefix, serialize, serialize_upper};
use const_hex_proved::FromHex;
use serde_json::value::{Serializer, Value};

pub fn write(line: &Line) {
    let (bytes, lower) = (&line.input[..], line.string());
    let upper = lower.to_uppercase();
    let text = |value: Result<Value, serde_json::Error>| value.unwrap();
    assert_all!(line, format!("0x{lower}"); text(serialize(bytes, Serializer)));
    assert_all!(line, format!("0x{upper}"); text(serialize_upper(bytes, Serializer)));
    assert_all!(line, lower; text(no_prefix::serialize(bytes, Serializer)));
    assert_all!(line, upper; text(no_prefix::serialize_upper(bytes, Serializer)));
}

/// The bytes of a JSON value, into an array of a length or a vector, or how its message ends.
pub fn read(line: &Line, length: Option<usize>) {
    let value: Value = serde_json::from_slice(&line.input).unwrap();
    match length {
        Some(length) => with_const!(length, N => read_as::<[u8; N]>(line, &value)),
        None => read_as::<Vec<u8>>(line, &value),
    }
}

fn read_as<T: FromHex<Error = const_hex_proved::FromHexError> + AsRef<[u8]>>(
    line: &Line,
    value: &Value,
) {
    let found: Result<T, serde_json::Error> = deserialize(value);
    match (&*line.operation, &line.result, found) {
        ("json-message", Ok(_), Err(error)) => {
            assert!(error.to_string().ends_with(&line.string()), "{}", line.text)
        }
        (_, Ok(bytes), Err(error)) if bytes == b"!NotText" => {
            assert!(error.to_string().ends_with("expected a hex encoded string"))
        }
        (_, Err(expected), Err(error)) => {
            assert_all!(line, expected.to_string(); error.to_string())
        }
        (_, Ok(bytes), Ok(found)) => assert_all!(line, bytes[..]; *found.as_ref()),
        _ => panic!("{}", line.text),
    }
}
