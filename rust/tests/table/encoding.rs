//! The functions that encode.

use super::lines::{error_of_secret, fill_secret, Line};
use const_hex_proved::*;

/// A line's text in lowercase and in uppercase, and both with a prefix.
type Forms = [String; 4];

pub fn write(line: &Line) {
    let bytes = &line.input[..];
    let shown = display(bytes);
    let (lower, upper) = (line.string(), line.string().to_uppercase());
    let (prefixed, upper_prefixed) = (format!("0x{lower}"), format!("0x{upper}"));
    assert_all!(line, lower;
        encode(bytes), secret::encode(bytes), ToHexExt::encode_hex(&bytes),
        ToHex::encode_hex::<String>(&bytes), format!("{shown}"), format!("{shown:x}"),
    );
    assert_all!(line, upper;
        encode_upper(bytes), secret::encode_upper(bytes), ToHexExt::encode_hex_upper(&bytes),
        ToHex::encode_hex_upper::<String>(&bytes), format!("{shown:X}"),
    );
    assert_all!(line, prefixed;
        encode_prefixed(bytes), bytes.encode_hex_with_prefix(), format!("{shown:#}"),
        format!("{shown:#x}"),
    );
    assert_all!(line, upper_prefixed;
        encode_upper_prefixed(bytes), bytes.encode_hex_upper_with_prefix(), format!("{shown:#X}"),
    );
    write_into(line, lower.len());
    let forms = [lower, upper, prefixed, upper_prefixed];
    append(line, &forms);
    with_const!(bytes.len(), N => format_array::<N>(line, &forms));
}

/// Appends to a string, with and without spare capacity.
fn append(line: &Line, forms: &Forms) {
    for (before, capacity) in [("", 0), ("é", 2), ("é", 3 + forms[0].len())] {
        let mut text = String::with_capacity(capacity);
        text.push_str(before);
        encode_append(&line.input, &mut text);
        encode_append_upper(&line.input, &mut text);
        encode_append_prefixed(&line.input, &mut text);
        encode_append_upper_prefixed(&line.input, &mut text);
        assert_all!(line, before.to_string() + &forms.concat(); text);
    }
}

pub fn write_into(line: &Line, length: usize) {
    let bytes = &line.input[..];
    let lower = line.result.clone();
    let upper = lower.clone().map(|text| text.to_ascii_uppercase());
    let mut output = vec![0; length];
    assert_all!(line, lower;
        line.fill(length, |output| encode_to_slice(bytes, output)),
        encode_to_str(bytes, &mut output).map(|text| text.as_bytes().to_vec()),
    );
    assert_all!(line, upper;
        line.fill(length, |output| encode_to_slice_upper(bytes, output)),
        encode_to_str_upper(bytes, &mut output).map(|text| text.as_bytes().to_vec()),
    );
    assert_all!(line, lower.clone().map_err(error_of_secret);
        fill_secret(length, |output| secret::encode_to_slice(bytes, output)));
    assert_all!(line, upper.clone().map_err(error_of_secret);
        fill_secret(length, |output| secret::encode_to_slice_upper(bytes, output)));
    assert_all!(line, lower.map(|text| [b"0x", &text[..]].concat());
        line.fill(length + 2, |output| encode_to_slice_prefixed(bytes, output)));
    assert_all!(line, upper.map(|text| [b"0x", &text[..]].concat());
        line.fill(length + 2, |output| encode_to_slice_upper_prefixed(bytes, output)));
}

/// The text of an array.
fn format_array<const N: usize>(line: &Line, [lower, upper, prefixed, upper_prefixed]: &Forms) {
    let bytes: &[u8; N] = line.input[..].try_into().unwrap();
    let (mut plain, mut full) = (Buffer::<N>::new(), Buffer::<N, true>::new());
    assert_all!(line, *lower;
        *plain.format(bytes), *plain.format_slice(bytes), plain.const_format(bytes).as_str(),
        const_encode::<N, false>(bytes).as_str(),
    );
    assert_all!(line, *upper;
        *plain.format_upper(bytes), *plain.format_slice_upper(bytes),
        plain.const_format_upper(bytes).as_str(),
    );
    assert_all!(line, *prefixed;
        *full.format(bytes), *full.format_slice(bytes), full.const_format(bytes).as_str(),
        const_encode::<N, true>(bytes).as_str(),
    );
    assert_all!(line, *upper_prefixed;
        *full.format_upper(bytes), *full.format_slice_upper(bytes),
        full.const_format_upper(bytes).as_str(),
    );
}
