//! Fault injection: each call of a reader and a writer fails in turn. It is proved that nothing is lost or written
//! twice. This tests that a run reads to the end and no further, flushes once, repeats an interrupted call and no other,
//! and returns the error of the call.

use crate::proved::{request_of, run, Mode, Request, RunError};
use std::cell::RefCell;
use std::io::{Error, ErrorKind, Read, Result, Write};

/// The calls so far, `r` for a read, `w` for a write and `f` for a flush. The one with the index `failing_call` fails.
struct Log {
    calls: String,
    failing_call: usize,
    kind: ErrorKind,
}

impl Log {
    /// Logs a call. Returns how many bytes it may transfer, or the injected error.
    fn call(&mut self, name: char) -> Result<usize> {
        self.calls.push(name);
        match self.kind {
            _ if self.calls.len() != self.failing_call + 1 => Ok(1),
            ErrorKind::WriteZero if name == 'w' => Ok(0),
            kind => Err(Error::from(kind)),
        }
    }
}

/// A reader that logs its calls, with the bytes that are left.
struct Input<'a>(&'a RefCell<Log>, &'a [u8]);

impl Read for Input<'_> {
    fn read(&mut self, buffer: &mut [u8]) -> Result<usize> {
        let count = self.0.borrow_mut().call('r')?;
        self.1.read(&mut buffer[..count])
    }
}

/// A writer that logs its calls, with the bytes that are written.
struct Output<'a>(&'a RefCell<Log>, Vec<u8>);

impl Write for Output<'_> {
    fn write(&mut self, bytes: &[u8]) -> Result<usize> {
        let count = self.0.borrow_mut().call('w')?;
        self.1.extend(&bytes[..count]);
        Ok(count)
    }

    fn flush(&mut self) -> Result<()> {
        self.0.borrow_mut().call('f').map(drop)
    }
}

/// The mode that command-line options ask for.
fn mode(options: &str) -> Mode {
    let arguments: Vec<String> = options.split_whitespace().map(String::from).collect();
    match request_of(&arguments) {
        Ok(Request::Run(mode, _)) => mode,
        _ => panic!("{options}"),
    }
}

/// What a run returns, writes and calls. An error has a kind, and is of a read (true) or of a write (false).
type Outcome = (Option<(bool, ErrorKind)>, Vec<u8>, String);

/// The options, the input, the calls if none fails, and the output. Text with an error is read no further.
const RUNS: [(&str, &[u8], &str, &[u8]); 6] = [
    ("", b"ki", "rwwrwwrf", b"6b69"),
    ("-s:", b"ki", "rwwrwwwrf", b"6b:69"),
    ("-w2", b"ki", "rwwrwwwrwf", b"6b\n69\n"),
    ("-d", b"6b69", "rrwrrwrf", b"ki"),
    ("--check", b"6b69", "rrrrrf", b""),
    ("-d", b"6bz9", "rrwr", b"k"),
];

/// Runs the program, with a fault in one call.
fn run_with_fault(options: &str, input: &[u8], failing_call: usize, kind: ErrorKind) -> Outcome {
    let log = RefCell::new(Log {
        calls: String::new(),
        failing_call,
        kind,
    });
    let mut output = Output(&log, Vec::new());
    let error = match run(mode(options), &mut Input(&log, input), &mut output) {
        Ok(()) | Err(RunError::Text(..)) => None,
        Err(RunError::Read(error)) => Some((true, error.kind())),
        Err(RunError::Write(error)) => Some((false, error.kind())),
    };
    (error, output.1, log.into_inner().calls)
}

/// What such a run should do: an interrupted call is repeated, and any other fault ends the run.
fn expected(calls: &str, output: &[u8], failing_call: usize, kind: ErrorKind) -> Outcome {
    let (before, after) = calls.split_at(failing_call);
    let call = after.get(..1).unwrap_or("");
    if call.is_empty() || kind == ErrorKind::Interrupted {
        return (None, output.to_vec(), format!("{before}{call}{after}"));
    }
    let output = &output[..before.matches('w').count()];
    let error = Some((call == "r", kind));
    (error, output.to_vec(), format!("{before}{call}"))
}

#[test]
fn each_call_fails() {
    for (options, input, calls, output) in RUNS {
        for kind in [
            ErrorKind::Interrupted,
            ErrorKind::TimedOut,
            ErrorKind::WriteZero,
        ] {
            for failing_call in 0..=calls.len() {
                assert_eq!(
                    run_with_fault(options, input, failing_call, kind),
                    expected(calls, output, failing_call, kind),
                    "{options:?}, call {failing_call}: {kind:?}"
                );
            }
        }
    }
}
