//! What only this host has: binary streams and the system's messages, also on Windows.
#![cfg(any(unix, windows))]

use std::env::temp_dir;
use std::fs::{self, File};
use std::io::{Read, Write};
use std::process::{Command, Stdio};

/// The exit status, standard output and standard error of a run.
type Outcome = (Option<i32>, Vec<u8>, String);

fn hexfilter(arguments: &[&str]) -> Command {
    let mut command = Command::new(env!("CARGO_BIN_EXE_hexfilter"));
    command
        .args(arguments)
        .stdin(Stdio::piped())
        .stdout(Stdio::piped())
        .stderr(Stdio::piped());
    command
}

/// Runs the command with this input, of which it may leave a rest.
fn run(command: &mut Command, input: &[u8]) -> Outcome {
    let mut child = command.spawn().unwrap();
    if let Some(mut stdin) = child.stdin.take() {
        let _ = stdin.write_all(input);
    }
    let output = child.wait_with_output().unwrap();
    let error = String::from_utf8(output.stderr).unwrap();
    (output.status.code(), output.stdout, error)
}

/// Ends of lines, the end of a file in Windows, and what is no UTF-8.
const BYTES: &[u8] = b"\r\n\n\x1a\0\xff\x80kiwi\r";

#[test]
fn binary_streams() {
    let text = b"0d0a0a1a00ff806b6977690d".to_vec();
    let encoded = run(&mut hexfilter(&[]), BYTES);
    assert_eq!(encoded, (Some(0), text.clone(), String::new()));
    let decoded = run(&mut hexfilter(&["-d"]), &text);
    assert_eq!(decoded, (Some(0), BYTES.to_vec(), String::new()));
    let lines = run(&mut hexfilter(&["-w", "3"]), b"kiwi");
    assert_eq!(lines.1, b"6b6\n977\n69\n");
}

#[test]
fn files() {
    let path = temp_dir().join(format!("hexfilter {} ÿ 猕猴桃", std::process::id()));
    let name = path.to_str().unwrap();
    let missing = format!("hexfilter: {name:?}: {}\n", File::open(name).unwrap_err());
    assert_eq!(
        run(&mut hexfilter(&[name]), b""),
        (Some(3), vec![], missing)
    );
    fs::write(&path, BYTES).unwrap();
    let encoded = run(&mut hexfilter(&[name]), b"");
    fs::remove_file(&path).unwrap();
    assert_eq!(encoded.1, b"0d0a0a1a00ff806b6977690d");
    let folder = run(&mut hexfilter(&[temp_dir().to_str().unwrap()]), b"");
    assert_eq!(folder.0, Some(3));
}

/// Each stream is open, but only for the other direction.
#[test]
fn streams_of_the_wrong_direction() {
    let path = temp_dir().join(format!("hexfilter stream {}", std::process::id()));
    let written = File::create(&path).unwrap();
    let read = File::open(&path).unwrap();
    let no_input = run(hexfilter(&[]).stdin(written), b"");
    let no_output = run(hexfilter(&[]).stdout(read), b"kiwi");
    fs::remove_file(&path).unwrap();
    for (outcome, stream) in [(no_input, "input"), (no_output, "output")] {
        assert_eq!(outcome.0, Some(3));
        let start = format!("hexfilter: standard {stream}: ");
        assert!(
            outcome.2.starts_with(&start) && outcome.2.ends_with(")\n"),
            "{}",
            outcome.2
        );
    }
}

#[test]
fn a_closed_pipe() {
    let mut child = hexfilter(&[]).spawn().unwrap();
    let mut stdin = child.stdin.take().unwrap();
    drop(child.stdout.take());
    // More than a pipe holds, so that the program has written before the input ends.
    let _ = stdin.write_all(&[0; 1 << 20]);
    drop(stdin);
    let mut error = String::new();
    child
        .stderr
        .take()
        .unwrap()
        .read_to_string(&mut error)
        .unwrap();
    assert_eq!(
        (child.wait().unwrap().code(), error),
        (Some(3), String::new())
    );
}

#[test]
fn an_argument_that_is_no_text() {
    #[cfg(unix)]
    let argument = std::os::unix::ffi::OsStringExt::from_vec(vec![0xff]);
    #[cfg(windows)]
    let argument = std::os::windows::ffi::OsStringExt::from_wide(&[0xd800]);
    let argument: std::ffi::OsString = argument;
    let outcome = run(hexfilter(&[]).arg(argument), b"");
    let error = "hexfilter: not UTF-8 \"\u{fffd}\"; try --help\n";
    assert_eq!(outcome, (Some(2), vec![], error.to_string()));
}

/// The manual page has each line of the help with its columns, apart from markup and punctuation.
#[test]
fn the_manual_page() {
    let words = |text: &str| {
        let text = text.to_lowercase().replace("\\fi", "").replace("\\fr", "");
        let text = text.replace(['"', ',', ':', '\\'], "");
        text.split_whitespace().collect::<Vec<_>>().join(" ")
    };
    let page = words(include_str!("../hexfilter.1"));
    let help = String::from_utf8(run(&mut hexfilter(&["--help"]), b"").1).unwrap();
    let (_, options) = help.split_once("\n\n").unwrap();
    for column in options.lines().flat_map(|line| line.split("  ")) {
        assert!(page.contains(&words(column)), "{column} is not there");
    }
}
