//! Command lines: output of other tools is decoded, and errors have their status and message.
#![cfg(target_os = "linux")]

use std::path::{Path, PathBuf};
use std::process::Command;
use std::{env, fs};

/// A new folder, in which the lines of a test run.
fn folder(name: &str) -> PathBuf {
    let path = Path::new(env!("CARGO_TARGET_TMPDIR")).join(name);
    let _ = fs::remove_dir_all(&path);
    fs::create_dir(&path).unwrap();
    path
}

/// The exit status, standard output and standard error of a line.
fn run(folder: &Path, line: &str) -> (Option<i32>, Vec<u8>, String) {
    let programs = Path::new(env!("CARGO_BIN_EXE_hexfilter")).parent().unwrap();
    let path = format!("{}:{}", programs.display(), env::var("PATH").unwrap());
    let output = Command::new("bash")
        .args(["-c", line])
        .current_dir(folder)
        .env("PATH", path)
        .output()
        .unwrap();
    (
        output.status.code(),
        output.stdout,
        String::from_utf8(output.stderr).unwrap(),
    )
}

/// The standard output. If the line fails, the test does.
fn output_of(folder: &Path, line: &str) -> Vec<u8> {
    let (status, output, error) = run(folder, line);
    assert_eq!((status, error.as_str()), (Some(0), ""), "{line}");
    output
}

/// Commands of other tools, and the options with which hexfilter writes the same.
const TOOLS: [(&str, &str); 5] = [
    ("xxd -p disk.img", "-w60"),
    ("basenc --base16 disk.img", "-uw 76"),
    ("basenc --base16 -w1 disk.img", "--upper --wrap=1"),
    (
        "od -An -v -tx1 -w9999999 disk.img | cut -c2- | tr -d '\\n'",
        "-g1",
    ),
    (
        "xxd -p disk.img | tr -d '\\n' | sed 's/......../&-/g; s/-$//'",
        "-g4 -s-",
    ),
];

/// Files that the manual names, the command that creates each, and one that writes the bytes that it stands for.
const FILES: [(&str, &str, &str); 5] = [
    ("disk.img", "true", "cat disk.img"),
    (
        "cert.pem",
        "openssl req -x509 -newkey ed25519 -nodes -subj /CN=kiwi -keyout /dev/null -out cert.pem 2> /dev/null",
        "openssl x509 -in cert.pem -outform DER | openssl dgst -sha1 -binary",
    ),
    (
        "id_ed25519",
        "ssh-keygen -q -t ed25519 -N '' -f id_ed25519",
        "cut -d' ' -f2 id_ed25519.pub | base64 -d | openssl dgst -md5 -binary",
    ),
    ("uuid.txt", "echo 6b697769-4b49-5749-8000-6b6977690000 > uuid.txt", "printf 'kiwiKIWI\\x80\\0kiwi\\0\\0'"),
    ("string.txt", "echo '\\x6b\\xff\\x00' > string.txt", "printf 'k\\xff\\0'"),
];

/// The command lines of the manual that pass another tool's output to hexfilter. Those of README.md are among them.
fn lines_of_manual() -> Vec<String> {
    let manual = include_str!("../hexfilter.1")
        .replace("\\-", "-")
        .replace("\\(aq", "'")
        .replace("\\(ha", "^")
        .replace("\\e", "\\");
    let (_, lines) = manual.split_once("Each of these lines").unwrap();
    let lines: Vec<String> = lines
        .lines()
        .filter(|line| line.contains("| hexfilter -d"))
        .map(String::from)
        .collect();
    let page = include_str!("../README.md")
        .lines()
        .filter_map(|line| line.strip_prefix("    "))
        .filter(|line| line.contains("| hexfilter -d"));
    for line in page {
        let line = line.split("  #").next().unwrap().trim().to_string();
        assert!(lines.contains(&line), "{line} is not in the manual");
    }
    lines
}

/// These lines decode to the bytes of the file that they name, and hexfilter encodes as other tools do.
#[test]
fn other_tools() {
    let folder = folder("tools");
    let decoded = lines_of_manual().into_iter().map(|line| {
        let is_named = |(name, _, _): &&(&str, _, _)| line.contains(name);
        let expected = FILES.iter().find(is_named).expect(&line).2.to_string();
        (line, expected)
    });
    let encoded =
        TOOLS.map(|(tool, options)| (tool.to_string(), format!("hexfilter {options} disk.img")));
    let rows: Vec<_> = decoded.chain(encoded).collect();
    assert!(rows.len() > 15);
    for (_, create, _) in FILES {
        run(&folder, create);
    }
    let bytes: Vec<u8> = (0..131_073_u32)
        .map(|i| (i.wrapping_mul(i) >> 7) as u8)
        .collect();
    for size in [0, 1, 29, 30, 31, 57, 131_073] {
        fs::write(folder.join("disk.img"), &bytes[..size]).unwrap();
        for (line, expected) in &rows {
            assert!(
                output_of(&folder, line) == output_of(&folder, expected),
                "{line}, at {size} bytes"
            );
        }
    }
}

/// A text, which `printf` writes to standard input, the options, the exit status, standard output, and what an error
/// says after `hexfilter: standard input: `.
#[rustfmt::skip]
const INPUTS: [(&str, &str, i32, &str, &str); 20] = [
    ("kiwi", "--group=1 --separator : --upper", 0, "6B:69:77:69", ""),
    ("kiwi", "-puw76 --wrap=7", 0, "0x6B697\n769\n", ""),
    ("kiwi", "--wrap=18446744073709551615", 0, "6b697769\n", ""),
    ("kiwi", "--group=18446744073709551615", 0, "6b697769", ""),
    ("", "-pw4", 0, "0x\n", ""),
    ("0X6b697769", "-d -", 0, "kiwi", ""),
    ("6b69 7769", "-g2 --decode", 0, "kiwi", ""),
    ("\\t0\\nx6B\\v\\f\\r 69\\n", "-di", 0, "ki", ""),
    ("6b6", "-d", 1, "k", "odd number of digits"),
    ("6b:6", "--check -s:", 1, "", "odd number of digits"),
    ("6b697z", "--check", 1, "", "invalid character 'z' at position 5"),
    ("6b69\\n", "--check", 1, "", "invalid character '\\n' at position 4"),
    ("0x0x6b", "-d", 1, "", "invalid character 'x' at position 3"),
    ("6b\\r\\n\\xff", "--check -i", 1, "", "invalid character 'ÿ' at position 4 (line 2, column 1)"),
    ("6b\\f69\\n7 z", "-di", 1, "ki", "invalid character 'z' at position 8 (line 2, column 3)"),
    ("6b\\x0e", "-di", 1, "k", "invalid character '\\u{e}' at position 2 (line 1, column 3)"),
    ("6b:6977", "-ds:", 1, "ki", "invalid character '7' at position 5 (line 1, column 6)"),
    ("6b::69", "-ds:", 1, "k", "invalid character ':' at position 3 (line 1, column 4)"),
    (":6b", "-ds:", 1, "", "invalid character ':' at position 0 (line 1, column 1)"),
    ("6:b", "-ds:", 1, "", "invalid character ':' at position 1 (line 1, column 2)"),
];

/// An error of the arguments, the index of the argument that it names, and lists of arguments.
const ARGUMENTS: [(&str, usize, &str); 8] = [
    (
        "unknown option",
        0,
        "-x|--decod|-D|-dx|---|--help=|--wrapx=1",
    ),
    ("unknown option", 1, "-d -x|-w7 -z --y|- --z"),
    (
        "missing value after",
        1,
        "-d -w|one --wrap|-p -dg|-d --separator",
    ),
    (
        "invalid number",
        0,
        "-wd|--wrap=|--wrap=1x|--group=18446744073709551616",
    ),
    ("invalid number", 1, "-w x|-w -1|--wrap +1|-g --"),
    (
        "invalid separator",
        0,
        "-sa|-s0|--separator=|--separator=F|-s::|--separator=ÿ",
    ),
    (
        "--wrap beside --group or --separator:",
        1,
        "-w60 -g2|-s: -dw60|-g2 --wrap=0",
    ),
    ("second file", 1, "one two|- -|one two -x"),
];

/// A line, its exit status, standard output, and what an error says after `hexfilter: `. The lines run one after
/// another in one folder.
#[rustfmt::skip]
const LINES: [(&str, i32, &str, &str); 25] = [
    ("hexfilter -dVh | head -n 1", 0, "Usage: hexfilter [OPTION]... [FILE]\n", ""),
    ("hexfilter --version file", 0, "hexfilter 1.0.0\n", ""),
    ("hexfilter $'--a\\n\\x1b[1m'", 2, "", "unknown option \"--a\\n\\u{1b}[1m\"; try --help"),
    ("hexfilter -dg2 $'-s\\n'", 2, "", "invalid separator \"-s\\n\"; try --help"),
    // As the page warns.
    ("printf '\\2\\1\\4\\3' | od -An -tx2 | hexfilter -di", 0, "\x01\x02\x03\x04", ""),
    // Files.
    ("printf kiwi > ./-d; hexfilter -- -d", 0, "6b697769", ""),
    ("hexfilter -u -p -- -d", 0, "0x6B697769", ""),
    ("hexfilter -d ./-d", 1, "", "\"./-d\": invalid character 'k' at position 0"),
    ("printf '6b69\\n' > text; hexfilter text -i -d", 0, "ki", ""),
    ("hexfilter --check -i text", 0, "", ""),
    ("hexfilter -d text", 1, "ki", "\"text\": invalid character '\\n' at position 4"),
    ("hexfilter -d $'a\\nb\\x1b'", 3, "", "\"a\\nb\\u{1b}\": No such file or directory (os error 2)"),
    ("hexfilter -d .", 3, "", "\".\": Is a directory (os error 21)"),
    ("(yes 6b69 | head -n 30000; echo '!') | hexfilter --check -i", 1, "", 
     "standard input: invalid character '!' at position 150000 (line 30001, column 1)"),
    // The file of the output, by any name, unless it is empty. It stays as it was.
    ("ulimit -f 64; printf 6b69 > own; ln own other; hexfilter own >> own", 3, "", "\"own\": input file is output file"),
    ("ulimit -f 64; hexfilter -d other >> own", 3, "", "\"other\": input file is output file"),
    ("ulimit -f 64; hexfilter < own >> own", 3, "", "standard input: input file is output file"),
    ("ulimit -f 64; hexfilter - < other 1<> own", 3, "", "standard input: input file is output file"),
    ("hexfilter own > new; cat own new", 0, "6b6936623639", ""),
    ("touch empty; hexfilter -p empty >> empty; cat empty", 0, "0x", ""),
    // Standard streams.
    ("printf kiwi | hexfilter > /dev/full", 3, "", "standard output: No space left on device (os error 28)"),
    ("hexfilter <&-", 0, "", ""),
    ("printf kiwi | hexfilter >&-", 0, "", ""),
    // The stack that the page promises.
    ("ulimit -s 160; printf kiwi | hexfilter -s:", 0, "6b:69:77:69", ""),
    ("ulimit -s 160; printf '6b 69' | hexfilter -di", 0, "ki", ""),
];

#[test]
fn statuses() {
    let folder = folder("statuses");
    let check = |line: &str, status, output: &str, source: &str, message: &str| {
        let error = if message.is_empty() {
            String::new()
        } else {
            format!("hexfilter: {source}{message}\n")
        };
        assert_eq!(
            run(&folder, line),
            (Some(status), output.into(), error),
            "{line}"
        );
    };
    for (text, options, status, output, message) in INPUTS {
        check(
            &format!("printf '{text}' | hexfilter {options}"),
            status,
            output,
            "standard input: ",
            message,
        );
    }
    for (message, index, rows) in ARGUMENTS {
        for arguments in rows.split('|') {
            let named = arguments.split(' ').nth(index).unwrap();
            check(
                &format!("hexfilter {arguments}"),
                2,
                "",
                "",
                &format!("{message} \"{named}\"; try --help"),
            );
        }
    }
    for (line, status, output, message) in LINES {
        check(line, status, output, "", message);
    }
}
