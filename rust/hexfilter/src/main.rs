//! The program `hexfilter`. All of it but the interface to the operating system is in `proved`, which is generated from
//! verified source.
#![forbid(unsafe_code)]

#[macro_use]
// It has the signatures of Rattle's library.
#[allow(clippy::extra_unused_type_parameters, clippy::wrong_self_convention)]
mod std_shim;
// The source is a library, of which this program calls a part. Its labels name loops for the proofs.
#[cfg_attr(test, deny(unused))]
#[allow(dead_code, unused_imports, unused_labels, clippy::all)]
#[rustfmt::skip]
mod proved;
#[cfg(test)]
mod faults;

use crate::std_shim::System;
use std::env;
use std::ffi::OsString;
use std::fs::File;
use std::io::{stdin, stdout, Result};
use std::process::ExitCode;

fn main() -> ExitCode {
    let arguments = env::args_os().skip(1).map(OsString::into_string);
    let arguments: Vec<String> = match arguments.collect::<std::result::Result<_, _>>() {
        Ok(arguments) => arguments,
        Err(argument) => {
            let argument = argument.to_string_lossy();
            let _ = eprintln!(&System; "hexfilter: not UTF-8 {argument:?}; try --help");
            return ExitCode::from(2);
        }
    };
    let streams = unbuffered(stdin()).and_then(|input| Ok((input, unbuffered(stdout())?)));
    match streams {
        Ok((mut input, mut output)) => {
            proved::program(&System, &arguments, &mut input, &mut output)
        }
        Err(error) => {
            let _ = eprintln!(&System; "hexfilter: standard streams: {error}");
            ExitCode::from(3)
        }
    }
}

impl proved::Host for System {
    type File = File;

    fn open(&self, name: &str) -> Result<File> {
        File::open(name)
    }

    #[cfg(unix)]
    fn is_output(&self, name: Option<&str>) -> bool {
        use std::os::unix::fs::MetadataExt;
        let input = match name {
            Some(name) => std::fs::metadata(name),
            None => unbuffered(stdin()).and_then(|input| input.metadata()),
        };
        let output = unbuffered(stdout()).and_then(|output| output.metadata());
        match (input, output) {
            (Ok(input), Ok(output)) => {
                let is_same = (input.dev(), input.ino()) == (output.dev(), output.ino());
                is_same && input.is_file() && input.len() > 0
            }
            _ => false,
        }
    }

    /// Rust's standard library cannot identify files here.
    #[cfg(not(unix))]
    fn is_output(&self, _: Option<&str>) -> bool {
        false
    }
}

/// A standard stream as a file. Rust's own streams are buffered, take a bad file descriptor for the end of the input,
/// and write only UTF-8 to a console of Windows.
#[cfg(unix)]
fn unbuffered(stream: impl std::os::unix::io::AsFd) -> Result<File> {
    Ok(stream.as_fd().try_clone_to_owned()?.into())
}

#[cfg(windows)]
fn unbuffered(stream: impl std::os::windows::io::AsHandle) -> Result<File> {
    Ok(stream.as_handle().try_clone_to_owned()?.into())
}

#[cfg(not(any(unix, windows)))]
fn unbuffered<S>(stream: S) -> Result<S> {
    Ok(stream)
}
