// Made by rust/erase from crates/hexfilter_core/src/error.rt. Do not edit.
//! Why a run fails.

use crate::std_shim::prelude::*;
use crate::proved::location::Location;
use crate::std_shim::codec::FromHexError;
use crate::std_shim::io;

/// Why a run fails.
#[derive(Debug)]
pub enum RunError {
    /// The text has an odd number of digits, or an invalid character, which is at this location if bytes may be left
    /// out of the input, and else in the first line.
    Text(FromHexError, Option<Location>),
    /// A read failed with this error. It is never `Interrupted`.
    Read(io::Error),
    /// A write or the flush failed with this error. It is never `Interrupted`.
    Write(io::Error),
}

impl RunError {
    /// The exit status of the program: 1 for the text, 3 for input and output.
    pub fn status(&self) -> u8 {
        match self {
            RunError::Text(..) => 1,
            RunError::Read(_) | RunError::Write(_) => 3,
        }
    }
}
