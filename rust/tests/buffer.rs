//! Buffers: what no line of the table tests.

use const_hex_proved::Buffer;
#[cfg(panic = "unwind")]
use std::panic::{catch_unwind, AssertUnwindSafe};

const BYTES: [u8; 4] = [0, 127, 128, 255];

#[test]
fn a_prefix_is_written_anew() {
    let mut buffer = Buffer::<1, true>::new();
    assert_eq!(buffer.as_str(), "0x\0\0");
    assert_eq!(buffer.format(&[0xAB]), "0xab");
    buffer.as_mut_str().make_ascii_uppercase();
    assert_eq!(buffer.as_str(), "0XAB");
    assert_eq!(buffer.const_format(&[0xCD]).as_str(), "0xcd");
    assert_eq!(buffer.format_slice([0xEF]), "0xef");
}

#[test]
fn views() {
    let mut buffer = Buffer::<4>::default();
    let lengths = [
        Buffer::<4>::LEN,
        Buffer::<4, true>::LEN,
        Buffer::<0, true>::LEN,
    ];
    assert_eq!(lengths, [8, 10, 2]);
    buffer.format_upper(&BYTES);
    // The one `as_ref`, as in const-hex, so that its type can be inferred.
    assert_eq!(buffer.as_ref(), "007F80FF");
    assert_eq!(buffer.as_bytes(), b"007F80FF");
    assert_eq!(buffer.as_byte_array(), b"007F80FF");
    assert_eq!(buffer.as_ptr(), buffer.as_bytes().as_ptr());
    // SAFETY: what is written is ASCII, in the text.
    unsafe {
        buffer.as_mut_bytes()[0] = b'1';
        buffer.buffer()[1] = b'2';
        *buffer.as_mut_ptr().add(2) = b'3';
    }
    assert_eq!(
        format!("{buffer:?} {buffer:#?}"),
        "Buffer(\"123F80FF\") Buffer(\n    \"123F80FF\",\n)"
    );
}

/// A slice or an array of another length panics, and leaves the buffer as it was.
#[cfg(panic = "unwind")]
#[test]
fn other_lengths() {
    fn panics(call: impl FnOnce() -> usize) {
        assert!(catch_unwind(AssertUnwindSafe(call)).is_err());
    }
    let mut buffer = Buffer::<4, true>::new();
    buffer.format(&BYTES);
    buffer.as_mut_str().make_ascii_uppercase();
    for slice in ["", "kiw", "kiwis"] {
        panics(|| buffer.format_slice(slice).len());
        panics(|| buffer.format_slice_upper(slice).len());
    }
    panics(|| buffer.as_byte_array::<8>().len());
    panics(|| buffer.as_byte_array::<12>().len());
    assert_eq!(buffer.as_str(), "0X007F80FF");
}
