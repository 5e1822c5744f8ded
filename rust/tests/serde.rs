//! Fields of JSON with options, vectors, or no prefix. The table tests the other functions.
#![cfg(all(feature = "std", feature = "serde"))]

use const_hex_proved::{serde as hexadecimal, FromHexError};
use serde::de::value::{BytesDeserializer, Error, StrDeserializer};
use serde::de::{Error as _, IntoDeserializer, Visitor};
use serde::{Deserialize, Deserializer, Serialize};

#[derive(Debug, Default, Deserialize, PartialEq, Serialize)]
#[serde(default)]
struct Fields {
    #[serde(with = "const_hex_proved::serde::option")]
    option: Option<[u8; 2]>,
    #[serde(with = "const_hex_proved::serde::vec")]
    vec: Vec<Vec<u8>>,
    #[serde(with = "const_hex_proved::serde::strict")]
    strict: Vec<u8>,
    #[serde(with = "const_hex_proved::serde::strict::option")]
    strict_option: Option<[u8; 1]>,
    #[serde(with = "const_hex_proved::serde::strict::vec")]
    strict_vec: Vec<Box<[u8]>>,
}

#[test]
fn options_and_vectors() {
    let text = r#"{"option":"0xdead","vec":["0x6b69","0x"],"strict":"6b","strict_option":"69","strict_vec":["6b","6977"]}"#;
    let fields = Fields {
        option: Some([0xDE, 0xAD]),
        vec: vec![b"ki".to_vec(), Vec::new()],
        strict: b"k".to_vec(),
        strict_option: Some(*b"i"),
        strict_vec: vec![b"k"[..].into(), b"iw"[..].into()],
    };
    assert_eq!(serde_json::to_string(&fields).unwrap(), text);
    // A prefix may be there or not.
    for text in [text, &text.replace("0xdead", "DEAD")] {
        assert_eq!(serde_json::from_str::<Fields>(text).unwrap(), fields);
    }
}

/// A field may be missing or nothing, and a vector empty.
#[test]
fn empty_fields() {
    let empty = serde_json::to_string(&Fields::default()).unwrap();
    assert!(empty
        .ends_with(r#""option":null,"vec":[],"strict":"","strict_option":null,"strict_vec":[]}"#));
    for text in ["{}", &empty] {
        let found = serde_json::from_str::<Fields>(text).unwrap();
        assert_eq!(found, Fields::default());
    }
}

/// The errors of options, of vectors, and of prefixes.
#[test]
fn errors_in_options_and_vectors() {
    let (not_text, x_at_1) = (
        "expected a hex encoded string",
        "invalid character 'x' at position 1",
    );
    for (field, error) in [
        (r#""option":"6b""#, "invalid string length"),
        (r#""option":7"#, not_text),
        (
            r#""vec":["6b","6g"]"#,
            "invalid character 'g' at position 1",
        ),
        (r#""vec":["6b",null]"#, not_text),
        (r#""strict":"0x6b""#, x_at_1),
        (r#""strict_option":"0x""#, x_at_1),
        (r#""strict_vec":["","0x6b"]"#, x_at_1),
    ] {
        let found = serde_json::from_str::<Fields>(&format!("{{{field}}}")).unwrap_err();
        assert!(found.to_string().contains(error), "{field}: {found}");
    }
}

/// A format may have the text as a string or as bytes.
#[test]
fn strings_and_bytes() {
    for (text, expected) in [
        ("0X6B69", Ok(*b"ki")),
        ("0x6b6", Err(FromHexError::OddLength)),
    ] {
        let expected = expected.map_err(Error::custom);
        let string: StrDeserializer<'_, Error> = text.into_deserializer();
        assert_eq!(hexadecimal::deserialize(string), expected);
        let bytes = BytesDeserializer::<Error>::new(text.as_bytes());
        assert_eq!(hexadecimal::deserialize(bytes), expected);
    }
}

/// A format that is not self-describing: the deserializer has to be asked for a string.
struct NotSelfDescribing(&'static str);

impl<'de> Deserializer<'de> for NotSelfDescribing {
    type Error = Error;

    fn deserialize_str<V: Visitor<'de>>(self, visitor: V) -> Result<V::Value, Error> {
        visitor.visit_str(self.0)
    }

    fn deserialize_any<V: Visitor<'de>>(self, _: V) -> Result<V::Value, Error> {
        Err(Error::custom("not asked for a string"))
    }

    serde::forward_to_deserialize_any! {
        bool i8 i16 i32 i64 i128 u8 u16 u32 u64 u128 f32 f64 char string bytes byte_buf option unit
        unit_struct newtype_struct seq tuple tuple_struct map struct enum identifier ignored_any
    }
}

#[test]
fn a_format_that_is_not_self_describing() {
    assert_eq!(
        hexadecimal::deserialize(NotSelfDescribing("6b69")),
        Ok(*b"ki")
    );
}
