//! `DecodeReader` and `EncodeWriter` over readers and writers with short reads and writes, and with injected faults.
#![cfg(feature = "std")]

use const_hex_proved::{encode, DecodeReader, EncodeWriter, FromHexError};
use std::io::{self, ErrorKind, Read, Write};

const fn invalid(c: char, index: usize) -> FromHexError {
    FromHexError::InvalidHexCharacter { c, index }
}

/// Bytes of which none is like its neighbour, and their text.
fn bytes_and_text(count: usize) -> (Vec<u8>, String) {
    let bytes: Vec<u8> = (0..count).map(|at| (at * 73) as u8).collect();
    let text = encode(&bytes);
    (bytes, text)
}

/// Reads or writes at most `max_count` bytes at a time. Each call whose number is in `errors` fails.
struct Faulty<T> {
    inner: T,
    max_count: usize,
    errors: Vec<(usize, ErrorKind)>,
    calls: usize,
    flushes: usize,
}

impl<T> Faulty<T> {
    fn new(inner: T, max_count: usize, errors: &[(usize, ErrorKind)]) -> Faulty<T> {
        Faulty {
            inner,
            max_count,
            errors: errors.to_vec(),
            calls: 0,
            flushes: 0,
        }
    }

    /// Counts a call, and returns its error, if it has to fail.
    fn count_call(&mut self) -> io::Result<()> {
        self.calls += 1;
        match self.errors.iter().find(|(call, _)| *call == self.calls) {
            Some((_, kind)) => Err((*kind).into()),
            None => Ok(()),
        }
    }
}

impl<T: Read> Read for Faulty<T> {
    fn read(&mut self, output: &mut [u8]) -> io::Result<usize> {
        self.count_call()?;
        let max_count = self.max_count.min(output.len());
        self.inner.read(&mut output[..max_count])
    }
}

impl<T: Write> Write for Faulty<T> {
    fn write(&mut self, bytes: &[u8]) -> io::Result<usize> {
        self.count_call()?;
        self.inner.write(&bytes[..self.max_count.min(bytes.len())])
    }

    fn flush(&mut self) -> io::Result<()> {
        self.flushes += 1;
        self.inner.flush()
    }
}

#[test]
fn short_reads() {
    let (bytes, text) = bytes_and_text(10_000);
    let text = format!("0X{text}");
    for max_count in [1, 2, 3, 7, 4096, 100_000] {
        for length in [1, 2, 5, 8192, 50_000] {
            let mut reader = DecodeReader::new(Faulty::new(text.as_bytes(), max_count, &[]));
            let (mut found, mut output) = (Vec::new(), vec![0; length]);
            assert_eq!(reader.read(&mut []).unwrap(), 0);
            let mut count = 1;
            while count > 0 {
                count = reader.read(&mut output).unwrap();
                found.extend_from_slice(&output[..count]);
            }
            assert!(found == bytes, "{max_count} at a time, into {length}");
        }
    }
}

/// A reader repeats how its text ended, also for an empty output, or if the inner reader has more. A position counts
/// from the start of the text.
#[test]
fn ends_of_the_text() {
    let long = "0".repeat(20_000) + "0x";
    for (text, end) in [
        ("6b69", Ok(())),
        ("6b0x77", Err(invalid('x', 3))),
        ("6b6", Err(FromHexError::OddLength)),
        ("6b69\n", Err(invalid('\n', 4))),
        (&long, Err(invalid('x', 20_001))),
    ] {
        let mut reader = DecodeReader::new(Chunks(vec![text.as_bytes(), b"", b"77"]));
        let first = reader.read_to_end(&mut Vec::new()).map(drop);
        let later = [9, 0, 1].map(|length| reader.read(&mut vec![0; length]));
        let later = later.map(|read| read.map(|count| assert_eq!(count, 0)));
        for found in later.into_iter().chain([first]) {
            let found: Result<(), FromHexError> = found.map_err(|error| {
                assert_eq!(error.kind(), ErrorKind::InvalidData);
                *error.into_inner().unwrap().downcast().unwrap()
            });
            assert_eq!(found, end);
        }
    }
}

/// An error of the inner reader is returned once, and reading goes on.
#[test]
fn errors_of_the_inner_reader() {
    let (bytes, text) = bytes_and_text(1000);
    let errors = [
        (1, ErrorKind::Interrupted),
        (2, ErrorKind::WouldBlock),
        (6, ErrorKind::BrokenPipe),
    ];
    let mut reader = DecodeReader::new(Faulty::new(text.as_bytes(), 97, &errors));
    let mut found = Vec::new();
    for kind in [ErrorKind::WouldBlock, ErrorKind::BrokenPipe] {
        assert_eq!(reader.read_to_end(&mut found).unwrap_err().kind(), kind);
    }
    reader.read_to_end(&mut found).unwrap();
    assert_eq!(found, bytes);
}

/// After an error of the inner writer, no digit is lost or written twice.
#[test]
fn short_writes() {
    let (bytes, text) = bytes_and_text(10_000);
    let kinds = [ErrorKind::Interrupted, ErrorKind::WouldBlock];
    let errors = (0..=9).flat_map(|call| kinds.map(|kind| [(call, kind), (call + 1, kind)]));
    for errors in errors {
        for (max_count, length) in [
            (1, 255),
            (3, 1),
            (7, 10_000),
            (1500, 256),
            (4096, 257),
            (100_000, 2),
        ] {
            let mut writer = EncodeWriter::new(Faulty::new(Vec::new(), max_count, &errors));
            for mut rest in bytes.chunks(length) {
                while !rest.is_empty() {
                    rest = &rest[writer.write(rest).unwrap_or(0)..];
                }
            }
            while writer.flush().is_err() {}
            let found = writer.finish().unwrap().inner;
            assert!(
                found == text.as_bytes(),
                "{max_count} at a time, of {length}: {errors:?}"
            );
        }
    }
}

/// The inner reader has the rest of its text, and the inner writer, which may have a buffer, what was flushed.
#[test]
fn the_inner_reader_and_writer() {
    let text = "6b697769".repeat(10_000);
    let mut reader = DecodeReader::new(text.as_bytes());
    assert_eq!(reader.get_ref().len(), text.len());
    assert_eq!(reader.read(&mut [0; 4]).unwrap(), 4);
    let left = reader.into_inner();
    assert!((1..text.len()).contains(&left.len()) && text.as_bytes().ends_with(left));

    let mut writer = EncodeWriter::new(Faulty::new(Vec::new(), 9, &[]));
    writer.write_all(b"ki").unwrap();
    writer.flush().unwrap();
    writer.write_all(b"wi").unwrap();
    assert_eq!(writer.get_ref().inner, b"6b69");
    let other = writer.into_inner();
    assert_eq!((&other.inner[..], other.flushes), (&b"6b69"[..], 1));
    assert_eq!(EncodeWriter::new(other).finish().unwrap().flushes, 2);
}

/// Reads these chunks, each by one call. After an empty one, which is the end of a text, there may be more.
struct Chunks<'a>(Vec<&'a [u8]>);

impl Read for Chunks<'_> {
    fn read(&mut self, output: &mut [u8]) -> io::Result<usize> {
        let count = self.0[0].read(output)?;
        if self.0[0].is_empty() {
            self.0.remove(0);
        }
        Ok(count)
    }
}
