// Made by rust/erase from crates/const_hex/src/codec.rt. Do not edit.
//! Encoding, checking and decoding.

use crate::std_shim::prelude::*;

pub(crate) mod body;
pub(crate) mod checks;
pub(crate) mod decoder;
pub(crate) mod decoders;
pub(crate) mod encoders;
