// Made by rust/erase from crates/hexfilter_core/src/location.rt. Do not edit.
//! The line and column of a character, as editors count them.

use crate::std_shim::prelude::*;

/// The line and the column of a character. Both count from 1, and a line ends with `\n`.
#[derive(Clone, Copy, PartialEq, Eq, Debug)]
pub struct Location {
    /// The number of the line.
    pub line: usize,
    /// The number of the character in its line.
    pub column: usize,
}

impl Location {
    /// The location of the first character.
    pub(crate) const FIRST: Location = Location { line: 1, column: 1 };

    /// The location after this byte, if the byte is at `self`.
    pub(crate) fn after(self, byte: u8) -> Location {
        if byte == b'\n' {
            return Location {
                line: self.line.wrapping_add(1),
                column: 1,
            };
        }
        self.advance_by(1)
    }

    /// The location after `count` bytes, none of which is a newline.
    pub(crate) fn advance_by(self, count: usize) -> Location {
        Location {
            line: self.line,
            column: self.column.wrapping_add(count),
        }
    }
}
