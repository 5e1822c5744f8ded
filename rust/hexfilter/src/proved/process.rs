// Made by rust/erase from crates/hexfilter_core/src/process.rt. Do not edit.
//! The complete program, from its arguments to its exit status.

use crate::std_shim::prelude::*;
use crate::proved::error::RunError;
use crate::proved::location::Location;
use crate::proved::mode::Mode;
use crate::proved::options::{Request, UsageError, UsageErrorKind, request_of};
use crate::proved::runs::run;
use crate::proved::transfer::{flush, write_piece};
use crate::std_shim::io::{Eprint, Error, ErrorKind, Read, Write};
use crate::std_shim::process::ExitCode;

/// What `--help` prints.
const HELP: &str = "\
Usage: hexfilter [OPTION]... [FILE]
Writes FILE as hexadecimal text, or decodes such text. Without FILE, or if FILE
is -, reads standard input. Writes to standard output.

  -d, --decode             decode the text: digits alone, or after one 0x
      --check              only test whether the text can be decoded
  -i, --ignore-whitespace  leave out spaces, tabs and ends of lines before the
                           text is decoded. The offsets and words that od and
                           hexdump print without options decode to wrong bytes
  -u, --upper              write digits in uppercase
  -p, --prefix             write 0x before the digits
  -w, --wrap COLUMNS       write lines of COLUMNS characters (0: no lines)
  -g, --group BYTES        write or read groups of BYTES bytes, with a space
                           between them (0: no groups)
  -s, --separator TEXT     write or read TEXT between the groups, which are of
                           1 byte without --group. TEXT is one character
  -h, --help               print this help
  -V, --version            print the version

Exit status: 0 done, 1 the text cannot be decoded, 2 an argument is not valid,
3 a read or a write failed.

Examples:
  xxd -p disk.img | hexfilter -di > copy.img
  hexfilter -pw64 disk.img
  echo 6B:69:77:69 | hexfilter -di --separator :
";

/// What `--version` prints.
const VERSION: &str = "hexfilter 1.0.0\n";

/// The operating system, as the program uses it: files, standard error, and the file behind standard output.
pub trait Host: Eprint {
    /// An open file.
    type File: Read;

    /// Opens the file with that name at its start.
    fn open(&self, name: &str) -> Result<Self::File, Error>;

    /// Whether standard output goes to the file with that name or, without a name, to the file that is standard input,
    /// and this file has bytes.
    fn is_output(&self, name: Option<&str>) -> bool;
}

/// Does what the arguments after the program's name ask for, with `input` and `output` as standard input and output.
/// Returns the exit status: 0 if that succeeds, 1 if the text cannot be decoded, 2 if the arguments are not valid, and
/// 3 if a read or a write fails, or if the input is the file that standard output goes to. An error is one line on
/// standard error, but none if standard output is a broken pipe.
pub fn program<H: Host, R: Read, W: Write>(
    host: &H,
    arguments: &[String],
    input: &mut R,
    output: &mut W,
) -> ExitCode {
    match request_of(arguments) {
        Ok(Request::Help) => report_outcome(host, None, print(HELP, output)),
        Ok(Request::Version) => report_outcome(host, None, print(VERSION, output)),
        Ok(Request::Run(mode, file)) => {
            let name = file_name(arguments, file);
            report_outcome(host, name, run_on(host, mode, name, input, output))
        }
        Err(error) => report_usage_error(host, arguments, error),
    }
}

/// The name of the file that the argument with that index names, unless that is standard input.
fn file_name(arguments: &[String], index: Option<usize>) -> Option<&str> {
    match arguments.get(index?) {
        Some(name) if name.as_str() != "-" => Some(name.as_str()),
        _ => None,
    }
}

/// Prints which argument is invalid, and why.
fn report_usage_error(host: &impl Eprint, arguments: &[String], error: UsageError) -> ExitCode {
    let argument = match arguments.get(error.index) {
        Some(argument) => argument.as_str(),
        None => "",
    };
    let reason = match &error.kind {
        UsageErrorKind::UnknownOption => "unknown option",
        UsageErrorKind::MissingValue => "missing value after",
        UsageErrorKind::InvalidNumber => "invalid number",
        UsageErrorKind::InvalidSeparator => "invalid separator",
        UsageErrorKind::GroupsInLines => "--wrap beside --group or --separator:",
        UsageErrorKind::SecondFile => "second file",
    };
    // An error of standard error cannot be reported.
    let _ = eprintln!(host; "hexfilter: {reason} {argument:?}; try --help");
    ExitCode::from(2)
}

/// Runs on the file with that name, or on standard input.
fn run_on<H: Host, R: Read, W: Write>(
    host: &H,
    mode: Mode,
    name: Option<&str>,
    input: &mut R,
    output: &mut W,
) -> Result<(), RunError> {
    if host.is_output(name) {
        // The input would grow while it is read.
        let message = "input file is output file";
        return Err(RunError::Read(Error::new(ErrorKind::InvalidInput, message)));
    }
    match name {
        None => run(mode, input, output),
        Some(name) => match host.open(name) {
            Ok(mut file) => run(mode, &mut file, output),
            Err(error) => Err(RunError::Read(error)),
        },
    }
}

/// Writes a text, and flushes.
fn print<W: Write>(text: &str, output: &mut W) -> Result<(), RunError> {
    write_piece(output, text.as_bytes())?;
    flush(output)
}

/// Prints the error of a run on the file with that name, or on standard input, unless standard output is a broken pipe.
/// Returns the exit status.
fn report_outcome(host: &impl Eprint, name: Option<&str>, outcome: Result<(), RunError>) -> ExitCode {
    let error = match outcome {
        Ok(()) => return ExitCode::SUCCESS,
        Err(error) => error,
    };
    let status = error.status();
    // An error of standard error cannot be reported.
    let _ = match (name, error) {
        (None, RunError::Text(error, None)) => {
            eprintln!(host; "hexfilter: standard input: {error}")
        }
        (None, RunError::Text(error, Some(Location { line, column }))) => {
            eprintln!(host; "hexfilter: standard input: {error} (line {line}, column {column})")
        }
        (None, RunError::Read(error)) => eprintln!(host; "hexfilter: standard input: {error}"),
        (Some(name), RunError::Text(error, None)) => eprintln!(host;
            "hexfilter: {name:?}: {error}"
        ),
        (Some(name), RunError::Text(error, Some(Location { line, column }))) => {
            eprintln!(host; "hexfilter: {name:?}: {error} (line {line}, column {column})")
        }
        (Some(name), RunError::Read(error)) => eprintln!(host; "hexfilter: {name:?}: {error}"),
        (_, RunError::Write(error)) if error.kind() == ErrorKind::BrokenPipe => Ok(()),
        (_, RunError::Write(error)) => eprintln!(host; "hexfilter: standard output: {error}"),
    };
    ExitCode::from(status)
}
