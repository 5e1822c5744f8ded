//! Runs the table of test vectors: each line on every function that it applies to.
#![cfg(feature = "std")]

#[macro_use]
mod lines;
mod decoding;
mod encoding;
#[cfg(feature = "serde")]
mod json;

use lines::Line;

#[test]
fn each_line() {
    let path = "../crates/const_hex_vectors/data/vectors.tsv";
    let table = std::fs::read_to_string(path).unwrap();
    for line in table.lines().filter_map(Line::read) {
        run(&line);
    }
}

fn run(line: &Line) {
    match (&*line.operation, line.number) {
        ("write", None) => {
            encoding::write(line);
            #[cfg(feature = "serde")]
            json::write(line);
        }
        ("write-into", Some(length)) => encoding::write_into(line, length),
        ("write-times", _) => encoding::write(line),
        ("read" | "read-times", _) => decoding::read(line),
        ("read-into", Some(length)) => decoding::read_into(line, length),
        ("read-chunks", None) => decoding::read_chunks(line),
        ("digits", None) => decoding::read_digits(line),
        ("each-byte", None) => decoding::each_byte(line),
        ("message", length) => decoding::message(line, length),
        #[cfg(feature = "serde")]
        ("json" | "json-into" | "json-message", length) => json::read(line, length),
        #[cfg(not(feature = "serde"))]
        ("json" | "json-into" | "json-message", _) => {}
        // What this crate does not have: kernels and sinks.
        ("fronts" | "pieces" | "calls", _) => {}
        ("values-of-block" | "write-block" | "read-block", None) => {}
        _ => panic!("an operation that is not known: {}", line.text),
    }
}
