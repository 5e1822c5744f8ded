//! Regression test: no call takes over 10 % more instructions than its recorded count. Only in a release build for
//! Linux: on x86-64 with valgrind, and on AArch64 with QEMU: `cargo test --release --test instructions`.
#![cfg(all(
    not(debug_assertions),
    any(target_arch = "x86_64", target_arch = "aarch64"),
    target_os = "linux"
))]

mod valgrind;

use const_hex_proved as hex;
use std::env;
use std::fmt::{Error, Result, Write};
use valgrind::black_box;

const LENGTHS: [usize; 6] = [1, 8, 20, 32, 64, 256];

/// The instructions of each call at these lengths: with AVX2, in portable code, and on AArch64. Where this is 0, none
/// are counted: QEMU prints each instruction, which takes seconds.
const COUNTS: [(&str, [[u64; 6]; 3]); 5] = [
    (
        "encode",
        [
            [197, 208, 209, 209, 223, 314],
            [185, 225, 276, 333, 477, 1341],
            [0, 0, 242, 0, 0, 375],
        ],
    ),
    (
        "encode_to_slice",
        [
            [33, 37, 36, 36, 56, 143],
            [21, 58, 113, 169, 311, 1175],
            [0, 0, 39, 0, 0, 174],
        ],
    ),
    (
        "decode",
        [
            [220, 222, 228, 230, 267, 417],
            [200, 291, 450, 606, 1025, 3518],
            [0, 0, 281, 0, 0, 576],
        ],
    ),
    (
        "decode_to_slice",
        [
            [69, 73, 74, 72, 112, 262],
            [52, 143, 298, 453, 870, 3367],
            [0, 0, 78, 0, 0, 372],
        ],
    ),
    (
        "check",
        [
            [43, 42, 51, 51, 73, 153],
            [32, 116, 260, 404, 788, 3092],
            [0, 0, 73, 0, 0, 279],
        ],
    ),
];

/// Calls with their lengths and their recorded counts, on this target.
fn cases() -> Vec<(&'static str, usize, u64)> {
    let column = match cfg!(feature = "force-generic") {
        true => 1,
        false => 2 * usize::from(cfg!(target_arch = "aarch64")),
    };
    let mut cases = Vec::new();
    for (call, counts) in COUNTS {
        cases.extend((0..LENGTHS.len()).map(|index| (call, LENGTHS[index], counts[column][index])));
    }
    // Printing to a writer that returns an error at once encodes no more than a part of the bytes.
    cases.push(("display", 1 << 20, [25_000, 500_000, 0][column]));
    // The search for an invalid character skips halves of the text: where the last is invalid, `check` takes at most three
    // times the instructions of valid text.
    let valid = [13_400, 393_300, 0][column];
    cases.push(("check", 1 << 15, valid));
    cases.push(("check, the last is invalid", 1 << 15, 3 * valid));
    cases.retain(|(_, _, count)| *count > 0);
    cases
}

/// Runs this test in a child process, in which the variable makes it repeat the calls.
#[test]
fn calls() {
    let cases = cases();
    if env::var_os("CONST_HEX_CALLS").is_some() {
        for (call, bytes, _) in cases {
            valgrind::repeat(|times| repeat(call, bytes, times));
        }
        return;
    }
    let counted = valgrind::instructions(cases.len(), |program| {
        program
            .args(["--exact", "calls", "--nocapture"])
            .env("CONST_HEX_CALLS", "1");
    });
    for ((call, bytes, count), found) in cases.into_iter().zip(counted) {
        let is_within_limit = found > 0 && found <= count + count / 10;
        assert!(
            is_within_limit,
            "{call} of {bytes} bytes: {found} instructions, {count} and 10 % more are allowed"
        );
    }
}

/// Makes a call a number of times.
fn repeat(call: &str, bytes: usize, times: usize) {
    let (mut data, mut text) = (vec![0xa5; bytes], vec![b'a'; 2 * bytes]);
    match call {
        "encode" => (0..times).for_each(|_| drop(black_box(hex::encode(black_box(&data))))),
        "encode_to_slice" => (0..times)
            .for_each(|_| hex::encode_to_slice(black_box(&data), black_box(&mut text)).unwrap()),
        "decode" => {
            (0..times).for_each(|_| drop(black_box(hex::decode(black_box(&text)).unwrap())))
        }
        "decode_to_slice" => (0..times)
            .for_each(|_| hex::decode_to_slice(black_box(&text), black_box(&mut data)).unwrap()),
        "display" => (0..times).for_each(|_| {
            assert!(write!(FailingWriter, "{}", hex::display(black_box(&data))).is_err())
        }),
        _ => {
            let is_valid = call == "check";
            text[2 * bytes - 1] = if is_valid { b'a' } else { b'g' };
            (0..times).for_each(|_| assert!(hex::check(black_box(&text)).is_ok() == is_valid))
        }
    }
}

/// A writer that always fails.
struct FailingWriter;

impl Write for FailingWriter {
    fn write_str(&mut self, _: &str) -> Result {
        Err(Error)
    }
}
