//! Secret-dependent jumps and addresses, by the method of ctgrind: the secret is marked as uninitialized, and valgrind's
//! memcheck reports each jump and each address that depends on it. On x86-64 with Linux:
//! `cargo test --test constant_time`.
#![cfg(all(target_arch = "x86_64", target_os = "linux", feature = "alloc"))]

mod valgrind;

use const_hex_proved::{const_check, secret};
use std::collections::BTreeSet;
use std::process::Command;
use valgrind::{black_box, request};

/// What a call leaks by its timing: what depends on a secret in it.
#[derive(Clone, Copy, Debug, PartialEq)]
enum Leak {
    Nothing,
    /// Whether the text is valid: jumps in the machine code's kernel, or one jump in portable code.
    Validity,
    /// Other jumps.
    Jumps,
    /// Addresses, and perhaps jumps.
    Addresses,
}
use Leak::*;

/// Bytes, their text, and space for as long a text.
struct Data {
    bytes: Vec<u8>,
    text: Vec<u8>,
    output: Vec<u8>,
}

/// The source text of a call, what it may leak, and the call.
type Case = (&'static str, Leak, fn(&mut Data));

/// The cases of some calls, whose results are not optimized away.
macro_rules! cases {
    ($data:ident: $($call:expr => $leak:expr;)+) => {
        [$((stringify!($call), $leak, |$data| { let _ = black_box($call); }),)+]
    };
}

const CASES: [Case; 7] = cases! { data:
    secret::encode(&data.bytes) => Nothing;
    secret::encode_upper(&data.bytes) => Nothing;
    secret::encode_to_slice(&data.bytes, &mut data.output) => Nothing;
    secret::encode_to_slice_upper(&data.bytes, &mut data.output) => Nothing;
    secret::decode_to_slice(&data.text, &mut data.output[..data.bytes.len()]) => Validity;
    // For the last length alone. For the others the lengths differ.
    secret::decode_to_array::<_, MAX_LENGTH>(&data.text) => Validity;
    // A table, which this test has to find.
    const_check(&data.text) => Addresses;
};

#[test]
fn leaks() {
    for (name, expected, _) in CASES {
        let (leak, locations) = leak_of(name);
        assert_eq!(leak, expected, "{name}: {locations:#?}");
    }
}

/// Makes the call that the variable CONST_HEX_CALL names, at each length. This is what valgrind runs.
#[test]
fn call() {
    let name = std::env::var("CONST_HEX_CALL").unwrap_or_default();
    if let Some((_, _, call)) = CASES.iter().find(|case| case.0 == name) {
        for length in 0..=MAX_LENGTH {
            let bytes: Vec<u8> = (0..length).map(|at| (at * 73 + length) as u8).collect();
            let text = secret::encode(&bytes).into_bytes();
            let output = vec![0; 2 * length];
            let mut data = Data {
                bytes,
                text,
                output,
            };
            make_undefined(&data.bytes);
            make_undefined(&data.text);
            call(&mut data);
        }
    }
}

const MAX_LENGTH: usize = 200;

/// What depends on a secret in a run of this program that makes the call, with the lines that valgrind prints: in pairs
/// what it is, and where.
fn leak_of(call: &str) -> (Leak, BTreeSet<String>) {
    let output = Command::new("valgrind")
        .args(["--quiet", "--error-limit=no", "--num-callers=1"])
        .arg(std::env::current_exe().unwrap())
        .args(["--exact", "call"])
        .env("CONST_HEX_CALL", call)
        .output()
        .expect("valgrind is installed");
    assert!(output.status.success());
    let stderr = String::from_utf8(output.stderr).unwrap();
    let lines: Vec<_> = stderr
        .lines()
        .filter_map(|line| line.split("== ").nth(1))
        .collect();
    let locations = |what| -> BTreeSet<String> {
        let pairs = lines.windows(2).filter(|pair| pair[0].starts_with(what));
        pairs.map(|pair| pair[1].trim().to_string()).collect()
    };
    let addresses = locations("Use of uninitialised value");
    let jumps = locations("Conditional jump");
    let is_in_kernel =
        |location: &String| location.contains(": const_hex_") && !location.contains("::");
    let leak = match cfg!(feature = "force-generic") {
        _ if !addresses.is_empty() => Addresses,
        _ if jumps.is_empty() => Nothing,
        true if jumps.len() == 1 => Validity,
        false if jumps.iter().all(is_in_kernel) => Validity,
        _ => Jumps,
    };
    (leak, jumps.union(&addresses).cloned().collect())
}

/// Marks these bytes as uninitialized.
fn make_undefined(bytes: &[u8]) {
    // VG_USERREQ__MAKE_MEM_UNDEFINED of valgrind/memcheck.h.
    const MAKE_MEM_UNDEFINED: usize = (b'M' as usize) << 24 | (b'C' as usize) << 16 | 1;
    let start = bytes.as_ptr() as usize;
    request([MAKE_MEM_UNDEFINED, start, bytes.len(), 0, 0, 0]);
}
