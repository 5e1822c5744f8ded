// Made by rust/erase from crates/hexfilter_core/src/stage.rt. Do not edit.
//! The state of a run, which encodes or decodes one chunk after another.

use crate::std_shim::prelude::*;
use crate::proved::error::RunError;
use crate::proved::groups::{put, put_groups};
use crate::proved::mode::{Groups, Mode, Reading};
use crate::proved::scanner::Scanner;
use crate::std_shim::codec::{Decoder, FixedKernel, FromHexError, fill_text};

/// The maximum length of a chunk.
pub(crate) const CHUNK: usize = 16_384;

/// The state of a run.
#[derive(Clone, Debug)]
pub(crate) struct Stage {
    /// Whether the prefix must still be written.
    prefix: bool,
    /// The number of characters in the last group that was written.
    group_fill: usize,
    /// The decoder of the text, from which bytes are left out.
    decoder: Decoder,
    /// The scanner of the input, which leaves out bytes.
    scanner: Scanner,
    /// The number of bytes that were read, or `usize::MAX` for more.
    bytes_read: usize,
}

impl Stage {
    /// The state before the first chunk.
    pub(crate) fn new(mode: Mode) -> Stage {
        let mut stage = Stage {
            prefix: false,
            group_fill: 0,
            decoder: Decoder::new(),
            scanner: Scanner::START,
            bytes_read: 0,
        };
        match mode {
            Mode::Encode { prefix, .. } => {
                stage.prefix = prefix;
                stage
            }
            Mode::Decode(_) => stage,
        }
    }

    /// Encodes or decodes the next chunk into the front of the output. An empty chunk is the end of the input. Returns
    /// the number of bytes written, which are all before the error, and the error, if there is one. `text` is a buffer
    /// for intermediate text.
    pub(crate) fn process_chunk(
        &mut self,
        mode: Mode,
        chunk: &[u8],
        text: &mut [u8],
        output: &mut [u8],
    ) -> (usize, Option<RunError>) {
        let is_eof = chunk.is_empty();
        match mode {
            Mode::Encode {
                prefix: _,
                upper,
                groups,
            } => {
                let end = self.encode(upper, groups, chunk, text, output);
                let newline = self.last_newline(groups, is_eof);
                (put(newline, output, end), None)
            }
            Mode::Decode(_) if is_eof => (0, self.finish()),
            Mode::Decode(reading) => self.decode(reading, chunk, text, output),
        }
    }

    /// Encodes the next chunk into the front of the output. Returns the number of bytes written.
    fn encode(
        &mut self,
        upper: bool,
        groups: Groups,
        chunk: &[u8],
        text: &mut [u8],
        output: &mut [u8],
    ) -> usize {
        let count = 2 * chunk.len() + if self.prefix { 2 } else { 0 };
        let prefix = self.prefix;
        self.prefix = false;
        if groups.size == 0 {
            fill_text::<FixedKernel>(chunk, prefix, upper, &mut output[..count]);
            return count;
        }
        let text = &mut text[..count];
        fill_text::<FixedKernel>(chunk, prefix, upper, text);
        let group_fill = self.group_fill.min(groups.size);
        let (end, next) = put_groups(groups, group_fill, text, output);
        self.group_fill = next;
        end
    }

    /// The newline after the last line, at the end of the input, unless this line is empty.
    fn last_newline(&self, groups: Groups, is_eof: bool) -> Option<u8> {
        if is_eof && groups.separator == b'\n' && self.group_fill > 0 {
            return Some(b'\n');
        }
        None
    }

    /// Decodes the next chunk into the front of the output. Returns the number of bytes written, which are all before
    /// the error, and the error, if there is one. `text` is a buffer for the text of the chunk.
    fn decode(
        &mut self,
        reading: Reading,
        chunk: &[u8],
        text: &mut [u8],
        output: &mut [u8],
    ) -> (usize, Option<RunError>) {
        let mut next = self.clone();
        if let Ok(count) = next.decode_part(reading, chunk, text, output) {
            *self = next;
            return (count, None);
        }
        // The chunk has an invalid character: decode byte by byte up to it.
        let mut end = 0;
        'bytes: for done in 0..chunk.len() {
            let mut next = self.clone();
            match next.decode_part(reading, &[chunk[done]], text, &mut output[end..]) {
                Ok(count) => {
                    *self = next;
                    end += count;
                }
                Err(_) => return (end, Some(self.error(reading, chunk[done]))),
            }
        }
        (end, None)
    }

    /// Decodes a part of a chunk into the front of the output, and returns the number of bytes written. After an error
    /// this state must be discarded.
    fn decode_part(
        &mut self,
        reading: Reading,
        part: &[u8],
        text: &mut [u8],
        output: &mut [u8],
    ) -> Result<usize, FromHexError> {
        self.bytes_read = self.bytes_read.saturating_add(part.len());
        if reading.leaves_out() {
            let count = self.scanner.scan(reading, part, text);
            return decode_text(&mut self.decoder, reading, &text[..count], output);
        }
        // Without the scanner, which would copy the part: built with rustc 1.95 for x86-64, hexfilter then takes 0.5
        // million instructions instead of 0.8 million to decode 262,144 digits.
        decode_text(&mut self.decoder, reading, part, output)
    }

    /// The error for an invalid next byte.
    fn error(&self, reading: Reading, byte: u8) -> RunError {
        let error = FromHexError::InvalidHexCharacter {
            c: char::from(byte),
            index: self.bytes_read,
        };
        RunError::Text(error, self.scanner.location(reading))
    }

    /// Ends the input. Returns the error `OddLength` if the text has an odd number of digits.
    fn finish(&self) -> Option<RunError> {
        let end = self.clone();
        match end.decoder.finish() {
            Ok(()) => None,
            Err(error) => Some(RunError::Text(error, None)),
        }
    }
}

/// Decodes the next part of a text into the front of the output, or only checks it. Returns the number of bytes
/// written.
#[inline(always)]
fn decode_text(
    decoder: &mut Decoder,
    reading: Reading,
    text: &[u8],
    output: &mut [u8],
) -> Result<usize, FromHexError> {
    if reading.is_check {
        return match decoder.check(text) {
            Ok(()) => Ok(0),
            Err(error) => Err(error),
        };
    }
    decoder.decode(text, output)
}
