//! Differential test: random inputs to const-hex and to this codec under the same names. The only difference that is
//! allowed is the position of an invalid character after a prefix: only `check` of const-hex counts the prefix.
//!
//! CASES=1000000 in the environment sets the number of inputs.

#[path = "../../rust/tests/random/mod.rs"]
mod random;

use random::Random;

/// What a library encodes bytes to, also into an output of a size.
macro_rules! encoded {
    ($library:ident, $bytes:expr, $size:expr) => {{
        use $library::*;
        let (mut lower, mut upper) = (vec![7; $size], vec![7; $size]);
        let is_lower = encode_to_slice($bytes, &mut lower);
        let is_upper = encode_to_slice_upper($bytes, &mut upper);
        [
            format!("{is_lower:?} {lower:?} {is_upper:?} {upper:?}"),
            encode($bytes),
            encode_upper($bytes),
            encode_prefixed($bytes),
            encode_upper_prefixed($bytes),
            format!("{:#x} {:X}", display($bytes), display($bytes)),
        ]
    }};
}

/// What a library decodes a text to, also into an output of a size. `$added` is the length of a prefix that its positions
/// do not count. After an invalid character a library may have decoded more or fewer of the bytes before it.
macro_rules! decoded {
    ($library:ident, $text:expr, $size:expr, $added:expr) => {{
        use $library::{FromHexError::InvalidHexCharacter, *};
        let in_text = |error| match error {
            InvalidHexCharacter { c, index } => InvalidHexCharacter {
                c,
                index: index + $added,
            },
            error => error,
        };
        let mut output = vec![7; $size];
        let result = decode_to_slice($text, &mut output).map_err(in_text);
        if matches!(result, Err(InvalidHexCharacter { .. })) {
            output.clear();
        }
        [
            format!("{result:?} {output:?}"),
            format!("{:?} {}", check($text), check_raw($text)),
            format!("{:?}", decode($text).map_err(in_text)),
            format!("{:?}", decode_to_array::<_, 0>($text).map_err(in_text)),
            format!("{:?}", decode_to_array::<_, 20>($text).map_err(in_text)),
            format!("{:?}", const_decode_to_array::<20>($text).map_err(in_text)),
        ]
    }};
}

#[test]
fn random_inputs() {
    let count = std::env::var("CASES").map_or(100_000, |count| count.parse().unwrap());
    let mut random = Random(0x9E37_79B9_7F4A_7C15);
    for _ in 0..count {
        let (bytes, text) = (&random.bytes()[..], &random.text()[..]);
        let size = (2 * bytes.len() + random.below(3)).saturating_sub(random.below(3));
        let theirs = encoded!(const_hex, bytes, size);
        assert_eq!(theirs, encoded!(const_hex_proved, bytes, size), "{bytes:?}");
        let has_prefix = text.starts_with(b"0x") || text.starts_with(b"0X");
        let added = 2 * usize::from(has_prefix && text.len() % 2 == 0);
        let size = (text.len() / 2 + random.below(2)).saturating_sub(random.below(3));
        let theirs = decoded!(const_hex, text, size, added);
        assert_eq!(
            theirs,
            decoded!(const_hex_proved, text, size, 0),
            "{text:?}"
        );
    }
}
