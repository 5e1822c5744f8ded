//! The lines of the table of test vectors. The README of `const_hex_vectors` describes the columns.

use const_hex_proved::secret;
use const_hex_proved::FromHexError::{self, *};

/// The bytes of an output before a call.
pub const CANARY: u8 = 0xEE;

/// A test vector.
pub struct Line {
    /// The whole line, for messages.
    pub text: String,
    /// What the line tests, such as `read-into`.
    pub operation: String,
    /// The length of the output, or how often the cells are repeated, if the line has a number.
    pub number: Option<usize>,
    /// The bytes or the text that are passed.
    pub input: Vec<u8>,
    /// The result. A cell with an error that this crate does not have is kept as text.
    pub result: Result<Vec<u8>, FromHexError>,
}

impl Line {
    /// The line of a text, or `None` if it is empty or a comment.
    pub fn read(text: &str) -> Option<Line> {
        if text.is_empty() || text.starts_with('#') {
            return None;
        }
        let cells: Vec<&str> = text.split('\t').collect();
        let (operation, number) = cells[0].split_once(' ').unwrap_or((cells[0], ""));
        let number = number.parse().ok();
        let times = if operation.ends_with("-times") {
            number.unwrap()
        } else {
            1
        };
        Some(Line {
            text: text.to_string(),
            operation: operation.to_string(),
            number,
            input: bytes_of(cells[1]).repeat(times),
            result: match error_of(cells[2]) {
                Some(error) => Err(error),
                None => Ok(bytes_of(cells[2]).repeat(times)),
            },
        })
    }

    /// A successful result, as text.
    pub fn string(&self) -> String {
        String::from_utf8(self.result.clone().unwrap()).unwrap()
    }

    /// The result of a check.
    pub fn checked(&self) -> Result<(), FromHexError> {
        self.result.as_ref().map(drop).map_err(|error| *error)
    }

    /// How many characters of the input are a prefix.
    pub fn prefix(&self) -> usize {
        match self.input[..] {
            [b'0', b'x' | b'X', ..] => 2,
            _ => 0,
        }
    }

    /// Calls a function that fills an output, and asserts that after an invalid character the bytes from there on are
    /// unchanged, and after another error all.
    pub fn fill(
        &self,
        length: usize,
        call: impl FnOnce(&mut [u8]) -> Result<(), FromHexError>,
    ) -> Result<Vec<u8>, FromHexError> {
        let mut output = vec![CANARY; length];
        let error = match call(&mut output) {
            Ok(()) => return Ok(output),
            Err(error) => error,
        };
        let written = match error {
            InvalidHexCharacter { index, .. } => index.saturating_sub(self.prefix()) / 2,
            _ => 0,
        };
        assert!(
            output[written..].iter().all(|byte| *byte == CANARY),
            "{}",
            self.text
        );
        Err(error)
    }
}

/// Calls a function of `secret`, which clears its output after an error.
pub fn fill_secret(
    length: usize,
    call: impl FnOnce(&mut [u8]) -> Result<(), secret::Error>,
) -> Result<Vec<u8>, secret::Error> {
    let mut output = vec![CANARY; length];
    let result = call(&mut output);
    assert!(result.is_ok() || output.iter().all(|byte| *byte == 0));
    result.map(|()| output)
}

/// What `secret` returns in place of an error.
pub fn error_of_secret(error: FromHexError) -> secret::Error {
    match error {
        InvalidHexCharacter { .. } => secret::Error::InvalidHexCharacter,
        _ => secret::Error::InvalidStringLength,
    }
}

/// The error that a cell shows.
fn error_of(cell: &str) -> Option<FromHexError> {
    let words: Vec<&str> = cell.split(' ').collect();
    match words[..] {
        ["!OddLength"] => Some(OddLength),
        ["!InvalidStringLength"] => Some(InvalidStringLength),
        ["!InvalidHexCharacter", c, index] => Some(InvalidHexCharacter {
            c: u8::from_str_radix(&c[2..], 16).unwrap().into(),
            index: index.parse().unwrap(),
        }),
        _ => None,
    }
}

/// The bytes that a cell shows.
fn bytes_of(cell: &str) -> Vec<u8> {
    let mut parts = if cell == "\"\"" { "" } else { cell }.split("\\x");
    let mut bytes = parts.next().unwrap().as_bytes().to_vec();
    for part in parts {
        bytes.push(u8::from_str_radix(&part[..2], 16).unwrap());
        bytes.extend_from_slice(&part.as_bytes()[2..]);
    }
    bytes
}

/// Asserts that each call returns the expected result of a line.
macro_rules! assert_all {
    ($line:expr, $expected:expr; $($call:expr),+ $(,)?) => {{
        let expected = &$expected;
        $(assert_eq!(&$call, expected, "{} of {}", stringify!($call), $line.text);)+
    }};
}

/// Makes a call in which `$size` is a constant, if the number is one of the lengths of the table.
macro_rules! with_const {
    ($number:expr, $size:ident => $call:expr) => {
        with_const!($number, $size => $call; 0 1 2 3 4 5 8 12 16 20 32 33 48 64 65 128)
    };
    ($number:expr, $size:ident => $call:expr; $($count:literal)+) => {
        match $number {
            $($count => {
                const $size: usize = $count;
                $call
            })+
            _ => {}
        }
    };
}
