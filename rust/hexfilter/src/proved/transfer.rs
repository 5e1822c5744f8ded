// Made by rust/erase from crates/hexfilter_core/src/transfer.rt. Do not edit.
//! Reads and writes that are retried after an interrupt.

use crate::std_shim::prelude::*;
use crate::proved::error::RunError;
use crate::std_shim::io::{Error, ErrorKind, Read, Write};

/// Reads into the front of the buffer, and returns the number of bytes, which is 0 only at the end.
/// A call that a signal interrupts is retried.
pub(crate) fn read_chunk<R: Read>(input: &mut R, buffer: &mut [u8]) -> Result<usize, RunError> {
    'reads: for _ in 0..u64::MAX {
        match input.read(buffer) {
            Ok(count) => return Ok(count),
            Err(error) => {
                if error.kind() != ErrorKind::Interrupted {
                    return Err(RunError::Read(error));
                }
            }
        }
    }
    Err(too_many_reads())
}

/// The error of a reader that does not end within 2^64 reads.
#[cold]
pub(crate) fn too_many_reads() -> RunError {
    RunError::Read(Error::new(ErrorKind::TimedOut, "too many reads"))
}

/// Writes all the bytes. A call that a signal interrupts is retried.
// `WriteSink` of const_hex has the same loop, but keeps it private, and does not exist in Rust.
pub(crate) fn write_piece<W: Write>(output: &mut W, piece: &[u8]) -> Result<(), RunError> {
    let mut done = 0;
    'writes: for _ in 0..u64::MAX {
        if done >= piece.len() {
            return Ok(());
        }
        match output.write(&piece[done..]) {
            Ok(0) => return Err(write_error(ErrorKind::WriteZero, "the writer took no bytes")),
            Ok(count) => done += count,
            Err(error) => {
                if error.kind() != ErrorKind::Interrupted {
                    return Err(RunError::Write(error));
                }
            }
        }
    }
    Err(write_error(ErrorKind::TimedOut, "too many writes"))
}

/// Flushes. A call that a signal interrupts is retried.
pub(crate) fn flush<W: Write>(output: &mut W) -> Result<(), RunError> {
    'flushes: for _ in 0..u64::MAX {
        match output.flush() {
            Ok(()) => return Ok(()),
            Err(error) => {
                if error.kind() != ErrorKind::Interrupted {
                    return Err(RunError::Write(error));
                }
            }
        }
    }
    Err(write_error(ErrorKind::TimedOut, "too many flushes"))
}

/// An error of the writer with that kind and message.
#[cold]
fn write_error(kind: ErrorKind, message: &str) -> RunError {
    RunError::Write(Error::new(kind, message))
}
