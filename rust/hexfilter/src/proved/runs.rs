// Made by rust/erase from crates/hexfilter_core/src/runs.rt. Do not edit.
//! A complete run, over any reader and writer.

use crate::std_shim::prelude::*;
use crate::proved::error::RunError;
use crate::proved::mode::Mode;
use crate::proved::stage::{CHUNK, Stage};
use crate::proved::transfer::{flush, read_chunk, too_many_reads, write_piece};
use crate::std_shim::io::{Read, Write};

/// Reads the input to its end, writes the mode's output for it, and flushes. The input may have any length: it is
/// read in chunks of 16 KiB, and nothing is allocated.
///
/// Returns
///
/// - [`RunError::Text`], if the text cannot be decoded: with `InvalidHexCharacter` for its first
///   invalid character, before another chunk is read, and with `OddLength` at the end. The position is that in the
///   input, whitespace included, from 0, or `usize::MAX` for a position beyond it;
/// - [`RunError::Read`], if a read fails;
/// - [`RunError::Write`], if a write or the flush fails, or a write accepts no bytes.
///
/// Before an error of the text, the bytes of all pairs of digits before it were written, and before one of a read
/// or a write, a beginning of the output. A call that a signal interrupts is retried.
pub fn run<R: Read, W: Write>(mode: Mode, input: &mut R, output: &mut W) -> Result<(), RunError> {
    let mut chunk = [0; CHUNK];
    let mut text = [0; 2 * CHUNK + 2];
    let mut produced = [0; 4 * CHUNK + 5];
    let mut stage = Stage::new(mode);
    'chunks: for _ in 0..u64::MAX {
        let count = read_chunk(input, &mut chunk)?;
        let (end, error) = stage.process_chunk(mode, &chunk[..count], &mut text, &mut produced);
        write_piece(output, &produced[..end])?;
        if let Some(error) = error {
            return Err(error);
        }
        if count == 0 {
            return flush(output);
        }
    }
    Err(too_many_reads())
}
