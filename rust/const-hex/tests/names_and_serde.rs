//! What only this package decides: its names, and what fields read.
#![cfg(feature = "std")]

// Each name of the crate. All but `FromHex` and `serde` are those of const-hex-proved.
#[allow(unused_imports)]
use const_hex::{
    check, check_raw, const_check, const_check_raw, const_decode_to_array, const_encode, decode,
    decode_to_array, decode_to_slice, display, encode, encode_prefixed, encode_to_slice,
    encode_to_slice_upper, encode_to_str, encode_to_str_upper, encode_upper, encode_upper_prefixed,
    traits, Buffer, FromHex, FromHexError, ToHex, ToHexExt,
};

/// `#[serde(with = "const_hex")]` calls the functions of the root. Fields may be arrays of `i8`, too.
#[cfg(feature = "serde")]
#[test]
fn fields() {
    use const_hex::serde::no_prefix;
    use serde_json::{json, value::Serializer};

    let bytes = [10, 255];
    assert_eq!(const_hex::serialize(bytes, Serializer).unwrap(), "0x0aff");
    let upper = const_hex::serialize_upper(bytes, Serializer);
    assert_eq!(upper.unwrap(), "0x0AFF");
    assert_eq!(no_prefix::serialize(bytes, Serializer).unwrap(), "0aff");
    let numbers = Some([10_i8, -1]);
    assert_eq!(const_hex::deserialize(json!("0x0aff")).ok(), numbers);
    assert_eq!(no_prefix::deserialize(json!("0aff")).ok(), numbers);
}
