//! Client requests of valgrind, and counts of instructions, by callgrind or on AArch64 by QEMU.
#![allow(dead_code)] // No program uses all of it.

use std::io::{BufRead, BufReader};
use std::process::{Command, Stdio};
use std::{env, fs, process};

/// An optimization barrier, as `std::hint::black_box` is from Rust 1.66 on.
pub fn black_box<T>(value: T) -> T {
    // SAFETY: this is a comment, and no instruction.
    unsafe { std::arch::asm!("/* {} */", in(reg) &value, options(nostack, preserves_flags)) };
    value
}

/// Makes a client request of valgrind: its number and its arguments. The instructions are those of valgrind.h, and have no
/// effect elsewhere.
#[cfg(target_arch = "x86_64")]
pub fn request(words: [usize; 6]) {
    // SAFETY: the rotations add up to 128 bits, and the registers are declared.
    unsafe {
        std::arch::asm!(
            "rol rdi, 3",
            "rol rdi, 13",
            "rol rdi, 61",
            "rol rdi, 51",
            "xchg rbx, rbx",
            in("rax") &words,
            inout("rdx") 0usize => _,
        )
    }
}

/// Tells callgrind to dump its counters, and to reset them.
#[cfg(target_arch = "x86_64")]
fn mark() {
    // VG_USERREQ__DUMP_STATS of valgrind/callgrind.h.
    const DUMP_STATS: usize = (b'C' as usize) << 24 | (b'T' as usize) << 16;
    request([DUMP_STATS, 0, 0, 0, 0, 0]);
}

/// Prints a line, unbuffered, among those that QEMU prints for each instruction.
#[cfg(not(target_arch = "x86_64"))]
fn mark() {
    std::io::Write::write_all(&mut std::io::stderr(), format!("{MARK}\n").as_bytes()).unwrap();
}

/// The line in QEMU's output that ends a count.
const MARK: &str = "a round begins or ends";

/// How many calls are made in each round: one to warm up, and two that are compared.
const CALLS: [usize; 3] = [10, 10, 30];

/// Makes a call in three rounds, and marks where each begins and ends. The first is a warm-up: symbols are bound, and the
/// allocator places large blocks.
pub fn repeat(mut call: impl FnMut(usize)) {
    mark();
    for count in CALLS {
        call(count);
        mark();
    }
}

/// Runs this program, which repeats each of this number of calls, and returns the instructions of each: the difference of
/// the last two rounds, by the number of calls that they differ by.
pub fn instructions(calls: usize, prepare: impl FnOnce(&mut Command)) -> Vec<u64> {
    let counted = match cfg!(target_arch = "x86_64") {
        true => counted_by_callgrind(prepare),
        false => counted_by_qemu(prepare),
    };
    assert_eq!(counted.len() / 4, calls, "a round was not counted");
    // For each call: the count before its rounds, and that of each round.
    let rounds = counted.chunks_exact(4);
    rounds
        .map(|counted| (counted[3] - counted[2]) / (CALLS[2] - CALLS[1]) as u64)
        .collect()
}

/// This program under another one.
fn run_by(command: &str, prepare: impl FnOnce(&mut Command)) -> Command {
    let mut words = command.split(' ');
    let mut program = Command::new(words.next().unwrap());
    program.args(words).arg(env::current_exe().unwrap());
    prepare(&mut program);
    program
}

/// The counts of callgrind between marks.
fn counted_by_callgrind(prepare: impl FnOnce(&mut Command)) -> Vec<u64> {
    let path = env::temp_dir().join(format!("const-hex-counts.{}", process::id()));
    let options = "--combine-dumps=yes --callgrind-out-file";
    let command = format!("valgrind --tool=callgrind {options}={}", path.display());
    let output = run_by(&command, prepare).output().expect(&command);
    assert!(output.status.success(), "{command}: {output:?}");
    let dumps = fs::read_to_string(&path).unwrap();
    fs::remove_file(&path).unwrap();
    let totals = dumps
        .lines()
        .filter_map(|line| line.strip_prefix("totals: "));
    totals.map(|total| total.parse().unwrap()).collect()
}

/// The numbers of lines that QEMU printed between marks, one for each instruction.
fn counted_by_qemu(prepare: impl FnOnce(&mut Command)) -> Vec<u64> {
    let command = "qemu-aarch64 -L /usr/aarch64-linux-gnu -singlestep -d nochain,exec";
    let mut program = run_by(command, prepare);
    let mut child = program.stderr(Stdio::piped()).spawn().expect(command);
    let (mut rounds, mut count) = (Vec::new(), 0);
    for line in BufReader::new(child.stderr.take().unwrap()).lines() {
        match line.unwrap() {
            line if line == MARK => {
                rounds.push(count);
                count = 0;
            }
            line => count += u64::from(line.starts_with("Trace")),
        }
    }
    assert!(child.wait().unwrap().success(), "{command}");
    rounds
}
