// Made by rust/erase from crates/hexfilter_core/src/options.rt. Do not edit.
//! The command-line options.

use crate::std_shim::prelude::*;
use crate::proved::mode::{Groups, Mode, Reading};

/// What the program is asked to do.
#[derive(Clone, Copy, PartialEq, Eq, Debug)]
pub enum Request {
    /// To print the help.
    Help,
    /// To print the version.
    Version,
    /// To run in that mode, on the file that the argument with that index names, or on standard input.
    Run(Mode, Option<usize>),
}

/// Why an argument is invalid.
#[derive(Clone, Copy, PartialEq, Eq, Debug)]
pub enum UsageErrorKind {
    /// It has an unknown option.
    UnknownOption,
    /// It ends in an option whose value is missing.
    MissingValue,
    /// It has or is a value that is not a number up to `usize::MAX`.
    InvalidNumber,
    /// It has or is a separator that is not one ASCII character, or is a hexadecimal digit or a newline.
    InvalidSeparator,
    /// It is an option for groups together with one for lines, or the other way round.
    GroupsInLines,
    /// It is a second file.
    SecondFile,
}

/// The first invalid argument.
#[derive(Clone, Copy, PartialEq, Eq, Debug)]
pub struct UsageError {
    /// Why it is invalid.
    pub kind: UsageErrorKind,
    /// Its index.
    pub index: usize,
}

/// What kind of value an option takes: a number of columns or bytes, or a separator.
#[derive(Clone, Copy)]
pub(crate) enum Value {
    Size,
    Separator,
}

/// The options that were parsed so far.
#[derive(Clone, Copy, Default)]
pub(crate) struct Options {
    decode: bool,
    check: bool,
    upper: bool,
    prefix: bool,
    ignore_whitespace: bool,
    help: bool,
    version: bool,
    /// Whether lines are asked for, by `--wrap`.
    wrapped: bool,
    /// Whether groups are asked for, by `--group` or `--separator`.
    grouped: bool,
    /// The value of `--wrap` or `--group`.
    size: Option<usize>,
    separator: Option<u8>,
    /// The index of the argument that names a file.
    file: Option<usize>,
    /// The kind of value that the last option still expects.
    value: Option<Value>,
    /// Whether all further arguments are files, after `--`.
    only_files: bool,
}

/// Parses the arguments after the program's name. An error names the first invalid argument.
pub fn request_of(arguments: &[String]) -> Result<Request, UsageError> {
    let mut options = Options::default();
    for index in 0..arguments.len() {
        match options.with_argument(index, arguments[index].as_str()) {
            Ok(more) => options = more,
            Err(kind) => return Err(UsageError { kind, index }),
        }
    }
    options.request(arguments.len())
}

impl Options {
    /// Sets the option with this name, after the first dash. The last three take a value. `-u`, `-p` and `-w` are for
    /// encoding and `-i` is for decoding, but each mode accepts all of them.
    fn with_option(mut self, key: &str) -> Result<Options, UsageErrorKind> {
        match key {
            "d" | "-decode" => self.decode = true,
            "-check" => self.check = true,
            "u" | "-upper" => self.upper = true,
            "p" | "-prefix" => self.prefix = true,
            "i" | "-ignore-whitespace" | "-ignore-newlines" => self.ignore_whitespace = true,
            "h" | "-help" => self.help = true,
            "V" | "-version" => self.version = true,
            "w" | "-wrap" => (self.wrapped, self.value) = (true, Some(Value::Size)),
            "g" | "-group" => (self.grouped, self.value) = (true, Some(Value::Size)),
            "s" | "-separator" => (self.grouped, self.value) = (true, Some(Value::Separator)),
            _ => return Err(UsageErrorKind::UnknownOption),
        }
        Ok(self)
    }

    /// Sets the value of the last option, which is an error if that takes none.
    fn with_value(mut self, text: &str) -> Result<Options, UsageErrorKind> {
        match (self.value, text.as_bytes()) {
            (None, _) => return Err(UsageErrorKind::UnknownOption),
            (Some(Value::Size), _) => self.size = Some(number(text)?),
            (_, [byte]) if is_separator(*byte) => self.separator = Some(*byte),
            _ => return Err(UsageErrorKind::InvalidSeparator),
        }
        self.value = None;
        Ok(self)
    }

    /// Parses an argument.
    fn with_argument(self, index: usize, argument: &str) -> Result<Options, UsageErrorKind> {
        match self.with_word(index, argument) {
            Ok(more) if more.wrapped && more.grouped => Err(UsageErrorKind::GroupsInLines),
            more => more,
        }
    }

    /// As `with_argument`, but accepts lines and groups together.
    fn with_word(mut self, index: usize, argument: &str) -> Result<Options, UsageErrorKind> {
        if self.value.is_some() {
            return self.with_value(argument);
        }
        if !self.only_files {
            match argument.strip_prefix("-") {
                None | Some("") => {}
                Some("-") => {
                    self.only_files = true;
                    return Ok(self);
                }
                Some(text) if !text.starts_with('-') => return self.with_letters(text),
                Some(text) => match text.split_once('=') {
                    Some((key, value)) => return self.with_option(key)?.with_value(value),
                    None => return self.with_option(text),
                },
            }
        }
        if self.file.is_some() {
            return Err(UsageErrorKind::SecondFile);
        }
        self.file = Some(index);
        Ok(self)
    }

    /// Parses short options in one argument. If one takes a value, the rest of the argument is its value.
    fn with_letters(mut self, text: &str) -> Result<Options, UsageErrorKind> {
        let mut letters = text;
        while !letters.is_empty() {
            if !letters.is_char_boundary(1) {
                return Err(UsageErrorKind::UnknownOption);
            }
            let (letter, rest) = letters.split_at(1);
            self = self.with_option(letter)?;
            if self.value.is_some() && !rest.is_empty() {
                return self.with_value(rest);
            }
            letters = rest;
        }
        Ok(self)
    }

    /// The request that the options make up, after `count` arguments.
    fn request(self, count: usize) -> Result<Request, UsageError> {
        if self.value.is_some() {
            let (kind, index) = (UsageErrorKind::MissingValue, count.saturating_sub(1));
            return Err(UsageError { kind, index });
        }
        if self.help {
            return Ok(Request::Help);
        }
        if self.version {
            return Ok(Request::Version);
        }
        let (size, separator) = match (self.grouped, self.check || self.decode) {
            (true, _) => (
                self.size.unwrap_or(1).saturating_mul(2),
                self.separator.unwrap_or(b' '),
            ),
            (_, true) => (0, b'\n'),
            _ => (self.size.unwrap_or(0), b'\n'),
        };
        let groups = Groups { size, separator };
        let mode = if self.check || self.decode {
            Mode::Decode(Reading {
                is_check: self.check,
                ignore_whitespace: self.ignore_whitespace,
                groups,
            })
        } else {
            Mode::Encode {
                prefix: self.prefix,
                upper: self.upper,
                groups,
            }
        };
        Ok(Request::Run(mode, self.file))
    }
}

/// Whether the byte is a valid separator of groups. A newline separates lines.
fn is_separator(byte: u8) -> bool {
    byte.is_ascii() && byte != b'\n' && !byte.is_ascii_hexdigit()
}

/// Parses a decimal number without a sign.
fn number(text: &str) -> Result<usize, UsageErrorKind> {
    if text.starts_with('+') {
        return Err(UsageErrorKind::InvalidNumber);
    }
    match text.parse() {
        Ok(number) => Ok(number),
        Err(_) => Err(UsageErrorKind::InvalidNumber),
    }
}
