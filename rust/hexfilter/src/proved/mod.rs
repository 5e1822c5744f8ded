// Made by rust/erase from crates/hexfilter_core/src/lib.rt. Do not edit.
//! The program `hexfilter` as a library: a run over any reader and writer, and the complete program on any host.
//!
//! The terms of the contracts are defined in `specs/`. What a text decodes to is defined in
//! `const_hex`.

use crate::std_shim::prelude::*;

mod error;
mod groups;
mod location;
mod mode;
mod options;
mod process;
mod runs;
mod scanner;
mod stage;
mod transfer;

pub use crate::proved::error::RunError;
pub use crate::proved::location::Location;
pub use crate::proved::mode::{Groups, Mode, Reading};
pub use crate::proved::options::{Request, UsageError, UsageErrorKind, request_of};
pub use crate::proved::process::{Host, program};
pub use crate::proved::runs::run;

#[cfg(test)]
mod examples;
