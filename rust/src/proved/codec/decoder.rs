// Made by rust/erase from crates/const_hex/src/codec/decoder.rt. Do not edit.
//! The streaming decoder, for a text that arrives in chunks.

use crate::std_shim::prelude::*;
use crate::proved::codec::body::{
    decode_body, find_first_invalid, invalid_character, is_prefix, strip_prefix,
};
use crate::proved::error::FromHexError;
use crate::proved::{FixedKernel, Kernel, is_digit};

/// The state of a decoder without a pending digit and without an error.
const EVEN: u8 = 0;
/// The state of a decoder whose `byte` is the pending first digit of a pair.
const PENDING: u8 = 1;
/// The state of a decoder after an invalid character, which is its `byte`.
const FAILED: u8 = 2;

/// Decodes a text that arrives in chunks, as from a file or a socket.
///
/// Together the chunks are read as one text, however it was cut: between `0` and `x`, between two
/// digits, or into empty chunks. Only a prefix at the start of the whole text is removed.
///
/// Pass each chunk to [`decode`](Decoder::decode), and call [`finish`](Decoder::finish) at the end
/// of the text. [`decode_to_slice`](crate::decode_to_slice) reports an odd length before any invalid
/// character. A decoder cannot: it reports the first invalid character at once, and an odd length at
/// the end.
// The C interface exposes this struct: its bytes may then have any values, and all zeros are a new decoder.
#[repr(C)]
#[derive(Clone, Copy, Debug)]
pub struct Decoder {
    /// The number of bytes that were read, or the position of the invalid character.
    index: usize,
    /// The pending digit, or the invalid character.
    byte: u8,
    state: u8,
}

impl Decoder {
    /// A decoder that has read nothing. Does not allocate.
    #[inline]
    pub const fn new() -> Decoder {
        Decoder {
            index: 0,
            byte: 0,
            state: EVEN,
        }
    }

    /// Decodes the next chunk. Writes the newly decoded bytes to the front of the output, and returns
    /// their number. The rest of the output is unchanged.
    ///
    /// A chunk of n characters decodes to at most (n + 1) / 2 bytes, so an output of that size always
    /// suffices. The first digit of an incomplete pair is stored for the next chunk. The first of these
    /// errors is returned:
    ///
    /// - [`FromHexError::InvalidHexCharacter`], if an earlier chunk had an invalid character: the
    ///   same error again. Nothing changes;
    /// - [`FromHexError::InvalidStringLength`], if the output has too little space for the pairs of
    ///   digits, even if one of them is invalid. Nothing changes, and the chunk may be passed again;
    /// - [`FromHexError::InvalidHexCharacter`], with the first byte after the prefix that is not a
    ///   digit, and its position in the whole text, or `usize::MAX` for a position beyond it. Some of
    ///   the bytes before it may already have been written to the front of the output; the rest of
    ///   the output is unchanged.
    ///
    /// Does not allocate.
    #[inline]
    pub fn decode(&mut self, chunk: &[u8], output: &mut [u8]) -> Result<usize, FromHexError> {
        self.decode_with::<FixedKernel>(chunk, output)
    }

    /// As [`decode`](Decoder::decode), with a kernel of the caller's choice, which may differ from chunk
    /// to chunk. Does not allocate.
    #[inline]
    pub fn decode_with<K: Kernel>(
        &mut self,
        chunk: &[u8],
        output: &mut [u8],
    ) -> Result<usize, FromHexError> {
        if let Some(error) = self.error() {
            return Err(error);
        }
        let (pending, digits) = self.next_digits(chunk);
        let count = count_pairs(pending, digits);
        if count > output.len() {
            return Err(FromHexError::InvalidStringLength);
        }
        if !decode_next::<K>(pending, digits, &mut output[..count]) {
            return Err(self.fail::<K>(chunk.len() - digits.len(), digits));
        }
        self.advance(chunk.len(), left_over(pending, digits, count));
        Ok(count)
    }

    /// Reads the next chunk as [`decode`](Decoder::decode) does, but writes nothing.
    ///
    /// Returns [`FromHexError::InvalidHexCharacter`] when `decode` into an output with enough space
    /// returns it. Does not allocate.
    #[inline]
    pub fn check(&mut self, chunk: &[u8]) -> Result<(), FromHexError> {
        if let Some(error) = self.error() {
            return Err(error);
        }
        let (pending, digits) = self.next_digits(chunk);
        if !FixedKernel::check(digits) {
            return Err(self.fail::<FixedKernel>(chunk.len() - digits.len(), digits));
        }
        let pairs = count_pairs(pending, digits);
        self.advance(chunk.len(), left_over(pending, digits, pairs));
        Ok(())
    }

    /// Ends the text. Returns `Ok` if the chunks together are a text that [`decode`](crate::decode)
    /// accepts.
    ///
    /// Returns [`FromHexError::OddLength`] if the text has an odd number of bytes and no invalid
    /// character, so also for a lone `0`. If a chunk had an invalid character, returns its error again.
    /// Does not allocate.
    #[inline]
    pub fn finish(self) -> Result<(), FromHexError> {
        if let Some(error) = self.error() {
            return Err(error);
        }
        if self.state == PENDING {
            return Err(FromHexError::OddLength);
        }
        Ok(())
    }

    /// How many bytes of the text were read, or `usize::MAX` if they were more. After an invalid
    /// character, its position. Does not allocate.
    #[inline]
    pub fn position(&self) -> usize {
        self.index
    }

    /// The stored error, if a chunk had an invalid character.
    #[inline(always)]
    fn error(&self) -> Option<FromHexError> {
        if self.state <= PENDING {
            return None;
        }
        Some(invalid_character(self.byte, self.index))
    }

    /// The pending digit, if there is one.
    #[inline(always)]
    fn pending(&self) -> Option<u8> {
        if self.state == PENDING {
            Some(self.byte)
        } else {
            None
        }
    }

    /// The pending digit and the digits of the next chunk. A prefix is removed, even if it began in an earlier chunk.
    #[inline(always)]
    fn next_digits<'a>(&self, chunk: &'a [u8]) -> (Option<u8>, &'a [u8]) {
        if self.index == 0 {
            return (None, strip_prefix(chunk));
        }
        match chunk {
            [x, rest @ ..] if self.index == 1 && is_prefix(self.byte, *x) => (None, rest),
            _ => (self.pending(), chunk),
        }
    }

    /// Advances by `count` bytes, and stores the pending digit.
    #[inline(always)]
    fn advance(&mut self, count: usize, pending: Option<u8>) {
        self.index = self.index.saturating_add(count);
        match pending {
            Some(digit) => {
                self.byte = digit;
                self.state = PENDING;
            }
            None => self.state = EVEN,
        }
    }

    /// Stores the error for the first invalid character of these digits, which begin `skipped` bytes after what was
    /// read, and returns it.
    #[cold]
    #[inline]
    fn fail<K: Kernel>(&mut self, skipped: usize, digits: &[u8]) -> FromHexError {
        let (byte, index) = find_first_invalid::<K>(digits);
        let index = self.index.saturating_add(skipped).saturating_add(index);
        *self = Decoder {
            index,
            byte,
            state: FAILED,
        };
        invalid_character(byte, index)
    }
}

/// The number of pairs.
#[inline(always)]
fn count_pairs(pending: Option<u8>, digits: &[u8]) -> usize {
    (digits.len() + usize::from(pending.is_some())) / 2
}

/// The digit after `count` pairs, if there is one.
#[inline(always)]
fn left_over(pending: Option<u8>, digits: &[u8], count: usize) -> Option<u8> {
    match (pending, digits) {
        (None, [.., last]) if digits.len() > 2 * count => Some(*last),
        (Some(_), [.., last]) if digits.len() == 2 * count => Some(*last),
        (Some(_), []) => pending,
        _ => None,
    }
}

/// Decodes the pairs into the output and returns true. Returns false if some byte is not a digit.
#[inline(always)]
fn decode_next<K: Kernel>(pending: Option<u8>, digits: &[u8], output: &mut [u8]) -> bool {
    match pending {
        Some(high) => decode_after::<K>(high, digits, output),
        None => decode_pairs_and_last::<K>(digits, output),
    }
}

/// As `decode_next`, after a pending digit.
// Not inlined: with this body `decode_with` would be too large to be inlined.
#[inline(never)]
fn decode_after<K: Kernel>(high: u8, digits: &[u8], output: &mut [u8]) -> bool {
    match digits {
        [low, rest @ ..] => {
            let (first, others) = output.split_at_mut(1);
            decode_body::<K>(&[high, *low], first) && decode_pairs_and_last::<K>(rest, others)
        }
        [] => true,
    }
}

/// Decodes the digits into the output and returns true. The last digit of an odd number is only
/// tested. Returns false if some byte is not a digit.
#[inline(always)]
fn decode_pairs_and_last<K: Kernel>(digits: &[u8], output: &mut [u8]) -> bool {
    let (pairs, last) = digits.split_at(2 * output.len());
    decode_body::<K>(pairs, output) && check_last(last)
}

/// Whether the byte after the pairs, if there is one, is a digit.
// Without `K::check`: called from C, that would go through the dispatcher for a single byte.
#[inline(always)]
fn check_last(last: &[u8]) -> bool {
    match last {
        [digit] => is_digit(*digit),
        _ => true,
    }
}
