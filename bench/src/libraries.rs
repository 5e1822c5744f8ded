//! The libraries, and how each makes the calls.

use crate::{Case, Repeat};
use std::hint::black_box;

/// Every call of every library, for `size` bytes. Those of const-hex and const-hex-proved take turns.
pub fn cases(size: usize) -> Vec<Case> {
    let bytes: Vec<u8> = (0..size)
        .map(|i| (i.wrapping_mul(2_654_435_761) >> 7) as u8)
        .collect();
    let text = const_hex::encode(&bytes).into_bytes();
    let mut cases = Cases {
        bytes,
        text,
        list: Vec::new(),
    };
    with_names_of_hex!(const_hex, "const-hex", cases);
    with_names_of_hex!(const_hex_proved, "const-hex-proved", cases);
    cases.add_decoding("check", "const-hex", |text, _| const_hex::check(text));
    cases.add_decoding("check", "const-hex-proved", |text, _| {
        const_hex_proved::check(text)
    });
    macro_rules! known_lengths {
        ($($size:literal)+) => {
            match size {
                $($size => {
                    with_arrays!(const_hex, "const-hex", cases, $size);
                    with_arrays!(const_hex_proved, "const-hex-proved", cases, $size);
                })+
                _ => {}
            }
        };
    }
    known_lengths!(1 2 3 4 8 12 16 17 20 24 32 33 48 64 65 128 256 2048);
    with_names_of_hex!(hex, "hex", cases);
    add_data_encoding(&mut cases);
    cases.list
}

/// The variants of the text: what is added to a call's name.
const TEXTS: [&str; 3] = ["", ", first character invalid", ", last character invalid"];

/// The cases for these bytes, and for variants of their lowercase text.
struct Cases {
    bytes: Vec<u8>,
    text: Vec<u8>,
    list: Vec<Case>,
}

impl Cases {
    /// Adds a case that calls `run` on the bytes and on a buffer for the text.
    fn add_encoding<T>(
        &mut self,
        call: &str,
        library: &'static str,
        run: impl Fn(&[u8], &mut [u8]) -> T + Copy + 'static,
    ) {
        let (input, size) = (self.bytes.clone(), self.text.len());
        self.add(call, library, input, size, run);
    }

    /// Adds a case for each kind of text, which calls `run` on the text and on a buffer for the bytes.
    fn add_decoding<T: 'static, E: 'static>(
        &mut self,
        call: &str,
        library: &'static str,
        run: impl Fn(&[u8], &mut [u8]) -> Result<T, E> + Copy + 'static,
    ) {
        let (size, last) = (self.bytes.len(), self.text.len() - 1);
        for kind in TEXTS {
            let (call, mut text) = (format!("{call}{kind}"), self.text.clone());
            match kind {
                ", first character invalid" => text[0] = b'g',
                ", last character invalid" => text[last] = b'g',
                _ => {}
            }
            match run(&text, &mut vec![0; size]).is_ok() {
                true => self.add(&call, library, text, size, move |text, bytes| {
                    run(text, bytes).ok().unwrap()
                }),
                false => self.add(&call, library, text, size, move |text, bytes| {
                    run(text, bytes).err().unwrap()
                }),
            }
        }
    }

    /// Adds a case that calls `run` on a copy of the input and on a buffer of `size` bytes.
    fn add<T>(
        &mut self,
        call: &str,
        library: &'static str,
        input: Vec<u8>,
        size: usize,
        run: impl Fn(&[u8], &mut [u8]) -> T + Copy + 'static,
    ) {
        let prepare = move || -> Repeat {
            let (input, mut output) = (input.clone(), vec![0; size]);
            let mut call = move || {
                black_box(run(black_box(&input), black_box(&mut output)));
            };
            Box::new(move |count| (0..count).for_each(|_| call()))
        };
        self.list.push(Case {
            call: call.to_string(),
            library,
            size: self.bytes.len(),
            prepare: Box::new(prepare),
        });
    }
}

/// The calls of a crate that has the names of `hex`. `encode_hex` is that of its trait `ToHex`.
macro_rules! with_names_of_hex {
    ($library:ident, $name:literal, $cases:ident) => {{
        $cases.add_encoding("encode_to_slice", $name, |bytes, text| {
            $library::encode_to_slice(bytes, text).unwrap()
        });
        $cases.add_encoding("encode", $name, |bytes, _| $library::encode(bytes));
        $cases.add_decoding("decode_to_slice", $name, |text, bytes| {
            $library::decode_to_slice(text, bytes)
        });
        $cases.add_decoding("decode", $name, |text, _| $library::decode(text));
        #[allow(deprecated)]
        $cases.add_encoding("encode_hex", $name, |bytes, _| {
            $library::ToHex::encode_hex::<String>(&bytes)
        });
    }};
}
use with_names_of_hex;

/// The calls with arrays, whose lengths the compiler knows.
macro_rules! with_arrays {
    ($library:ident, $name:literal, $cases:ident, $size:literal) => {{
        $cases.add_encoding("encode_to_slice of an array", $name, |bytes, text| {
            let bytes: &[u8; $size] = bytes.try_into().unwrap();
            let text: &mut [u8; 2 * $size] = text.try_into().unwrap();
            $library::encode_to_slice(bytes, text).unwrap()
        });
        $cases.add_decoding("decode_to_array", $name, |text, _| {
            let text: &[u8; 2 * $size] = text.try_into().unwrap();
            $library::decode_to_array::<_, $size>(text)
        });
    }};
}
use with_arrays;

fn add_data_encoding(cases: &mut Cases) {
    use data_encoding::{HEXLOWER, HEXLOWER_PERMISSIVE};
    let name = "data-encoding";
    cases.add_encoding("encode_to_slice", name, |bytes, text| {
        HEXLOWER.encode_mut(bytes, text)
    });
    cases.add_decoding("decode_to_slice", name, |text, bytes| {
        HEXLOWER_PERMISSIVE.decode_mut(text, bytes)
    });
}
