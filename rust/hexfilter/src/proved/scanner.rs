// Made by rust/erase from crates/hexfilter_core/src/scanner.rt. Do not edit.
//! Removes whitespace and separators from an input, and tracks the line and column.

use crate::std_shim::prelude::*;
use crate::proved::groups::put;
use crate::proved::location::Location;
use crate::proved::mode::Reading;
use crate::std_shim::simd::prelude::*;

/// The number of bytes that are compared at once.
const LANES: usize = 32;

/// The state of a scanner of an input.
#[derive(Clone, Copy, Debug)]
pub(crate) struct Scanner {
    /// The number of characters since the last separator, if there are groups.
    group_fill: usize,
    /// The location of the next byte, if bytes may be left out.
    location: Location,
}

impl Scanner {
    /// A scanner that has read nothing.
    pub(crate) const START: Scanner = Scanner {
        group_fill: 0,
        location: Location::FIRST,
    };

    /// The location of the next byte.
    pub(crate) fn location(self, reading: Reading) -> Option<Location> {
        if reading.leaves_out() {
            return Some(self.location);
        }
        None
    }

    /// Scans a chunk. Writes what it adds to the text to the front of the output, and returns the length.
    pub(crate) fn scan(&mut self, reading: Reading, chunk: &[u8], output: &mut [u8]) -> usize {
        let mut scanner = *self;
        let mut done = 0;
        let mut end = 0;
        'runs: while done < chunk.len() {
            let count = scanner.copy_run(reading, &chunk[done..], &mut output[end..]);
            done += count;
            end += count;
            if count == LANES || done == chunk.len() {
                continue;
            }
            let added = scanner.scan_byte(reading, chunk[done]);
            done += 1;
            end = put(added, output, end);
        }
        *self = scanner;
        end
    }

    /// Scans a byte, and returns what it adds to the text.
    fn scan_byte(&mut self, reading: Reading, byte: u8) -> Option<u8> {
        let (added, group_fill) = classify_byte(reading, self.group_fill, byte);
        self.group_fill = group_fill;
        self.location = self.location.after(byte);
        added
    }

    /// Copies a run of bytes that are not left out and not below 33, which may end early. Returns its length.
    // Block by block, which takes less than half of the time of byte by byte.
    #[inline(always)]
    fn copy_run(&mut self, reading: Reading, chunk: &[u8], output: &mut [u8]) -> usize {
        let count = copy_block(chunk, output);
        if reading.groups.size == 0 {
            self.location = self.location.advance_by(count);
            return count;
        }
        let count = count.min(reading.groups.size.saturating_sub(self.group_fill));
        self.group_fill = self.group_fill.saturating_add(count);
        self.location = self.location.advance_by(count);
        count
    }
}

/// Copies the bytes of the first block, if there is one, up to the first that is below 33. Returns their number.
#[inline(always)]
fn copy_block(chunk: &[u8], output: &mut [u8]) -> usize {
    // Testing the first byte separately makes long runs of whitespace faster.
    if chunk.len() < LANES || chunk[0] <= b' ' {
        return 0;
    }
    let block = u8x32::from_slice(chunk);
    block.copy_to_slice(output);
    count_above_space(block)
}

/// What a byte adds to the text, and the number of characters since the last separator after it.
fn classify_byte(reading: Reading, group_fill: usize, byte: u8) -> (Option<u8>, usize) {
    let groups = reading.groups;
    let is_full = groups.size > 0 && group_fill == groups.size;
    if is_full && byte == groups.separator {
        return (None, 0);
    }
    if reading.ignore_whitespace && is_whitespace(byte) {
        return (None, group_fill);
    }
    if groups.size == 0 {
        return (Some(byte), 0);
    }
    let next = group_fill.saturating_add(1).min(groups.size);
    (Some(if is_full { 0 } else { byte }), next)
}

/// The number of lanes before the first space or control character.
fn count_above_space(block: u8x32) -> usize {
    let mask = block.simd_lt(u8x32::splat(33)).to_bitmask();
    if mask == 0 {
        return LANES;
    }
    mask.trailing_zeros() as usize
}

/// Whether the byte is whitespace.
fn is_whitespace(byte: u8) -> bool {
    matches!(byte, b'\t'..=b'\r' | b' ')
}
