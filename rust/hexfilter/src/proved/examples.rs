// Made by rust/erase from the examples of the source. Do not edit.

use crate::proved::*;
use crate::std_shim::codec::FromHexError;
use std::str::FromStr;

#[test]
fn hexfilter_error_runerror() {
    let mut output = Vec::new();
    let groups = Groups { size: 0, separator: b' ' };
    let mode = Mode::Decode(Reading { is_check: false, ignore_whitespace: false, groups });
    let error = run(mode, &mut b"6b6".as_slice(), &mut output).unwrap_err();
    assert_eq!(error.status(), 1);
}

#[test]
fn hexfilter_error_status() {
    assert_eq!(RunError::Text(FromHexError::OddLength, None).status(), 1);
}

#[test]
fn hexfilter_mode_mode() {
    let mut output = Vec::new();
    let mode = Mode::Encode { prefix: true, upper: false, groups: Groups { size: 4, separator: b'\n' } };
    run(mode, &mut b"kiwi".as_slice(), &mut output).unwrap();
    assert_eq!(output.as_slice(), b"0x6b\n6977\n69\n".as_slice());
}

#[test]
fn hexfilter_options_request() {
    let groups = Groups { size: 0, separator: b'\n' };
    assert_eq!(request_of(&[]), Ok(Request::Run(Mode::Encode { prefix: false, upper: false, groups }, None)));
}

#[test]
fn hexfilter_options_request_of() {
    let arguments = [String::from_str("--version").unwrap()];
    assert_eq!(request_of(&arguments), Ok(Request::Version));
}

#[test]
fn hexfilter_runs_run() {
    let mut output = Vec::new();
    let groups = Groups { size: 0, separator: b' ' };
    let mode = Mode::Decode(Reading { is_check: false, ignore_whitespace: true, groups });
    run(mode, &mut b"6b69\n7769\n".as_slice(), &mut output).unwrap();
    assert_eq!(output.as_slice(), b"kiwi".as_slice());
}
