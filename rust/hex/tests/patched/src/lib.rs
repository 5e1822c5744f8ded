//! A program that depends on the crate `hex` gets this package.

/// Like the crate, the package rejects a prefix, with the same error. Only the package reads arrays of 33 bytes.
#[test]
fn a_prefix_is_rejected() {
    let error = hex::FromHexError::InvalidHexCharacter { c: 'x', index: 1 };
    assert_eq!(hex::decode_to_slice("0x6b697769", &mut [0; 5]), Err(error));
    let bytes: Result<[u8; 33], _> = hex::FromHex::from_hex("6b".repeat(33));
    assert_eq!(bytes, Ok([b'k'; 33]));
}
