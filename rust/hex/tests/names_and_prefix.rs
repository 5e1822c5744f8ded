//! What only this package decides: its names, and what becomes of a prefix.
#![cfg(feature = "std")]

use hex::FromHexError::{InvalidHexCharacter, InvalidStringLength};
// Each name of the crate. What the functions return is tested in const-hex-proved.
#[allow(unused_imports)]
use hex::{decode, decode_to_slice, encode, encode_to_slice, encode_upper, FromHex, ToHex};

/// As with the crate, the type of the elements need not be named.
#[test]
fn vectors() {
    assert_eq!(Vec::from_hex("666f6f626172").unwrap(), b"foobar");
}

/// `#[serde(with = "hex")]` calls the functions of the root, and `with = "hex::serde"` those of the module.
#[cfg(feature = "serde")]
#[test]
fn fields() {
    use serde_json::{json, value::Serializer};

    let bytes = [10, 255];
    assert_eq!(hex::serialize(bytes, Serializer).unwrap(), "0aff");
    assert_eq!(hex::serialize_upper(bytes, Serializer).unwrap(), "0AFF");
    assert_eq!(hex::serde::serialize(bytes, Serializer).unwrap(), "0aff");
    assert_eq!(hex::serde::deserialize(json!("0aff")).ok(), Some(bytes));
}

/// The crate rejects a prefix, and so does this package without the feature `prefix`.
#[test]
fn prefixes() {
    let expected = match cfg!(feature = "prefix") {
        true => Ok(b"k".to_vec()),
        false => Err(InvalidHexCharacter { c: 'x', index: 1 }),
    };
    assert_eq!(decode("0x6b"), expected);
    assert_eq!(Vec::from_hex("0x6b"), expected);
    let array = expected.clone().and(Err(InvalidStringLength));
    assert_eq!(<[u8; 2]>::from_hex("0x6b"), array);
    assert_eq!(decode_to_slice("0x6b", &mut [0; 2]), array.map(drop));
    #[cfg(feature = "serde")]
    {
        let field = hex::deserialize(serde_json::json!("0x6b"));
        let field: Result<Vec<u8>, _> = field.map_err(|error: serde_json::Error| error.to_string());
        assert_eq!(field, expected.map_err(|error| error.to_string()));
    }
}
