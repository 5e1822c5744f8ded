//! Instructions of one call, by valgrind's callgrind, and on AArch64 by QEMU. They do not depend on what else the
//! machine does.
//!
//!     cargo run --release                            # every call of every library
//!     cargo run --release -- const-hex               # of these libraries alone
//!     MAX_BYTES=2048 cargo run                       # without optimization, up to this number of bytes
//!
//! The program runs itself once, with all calls. A cell is what two rounds of calls differ by, by the number of calls.

#[path = "../../rust/tests/valgrind/mod.rs"]
mod valgrind;

use const_hex_bench::{cases, Case, SIZES};
use std::collections::BTreeMap;
use std::env;

fn main() {
    let mut arguments: Vec<String> = env::args().skip(1).collect();
    if arguments.first().map(String::as_str) == Some("--repeat") {
        for case in chosen(&arguments.split_off(1)) {
            valgrind::repeat(case.prepared());
        }
        return;
    }
    let calls = chosen(&arguments).count();
    let counts = valgrind::instructions(calls, |program| {
        program.arg("--repeat").args(&arguments);
    });
    let cells: Vec<Cell> = chosen(&arguments).zip(counts).collect();
    print_tables(&cells);
}

/// A case, and the instructions of one call.
type Cell = (Case, u64);

/// The cases of the named libraries, or of all, up to the number of bytes that the variable `MAX_BYTES` says.
fn chosen(only: &[String]) -> impl Iterator<Item = Case> + '_ {
    let limit = env::var("MAX_BYTES").ok().and_then(|max| max.parse().ok());
    let sizes = SIZES
        .into_iter()
        .filter(move |size| *size <= limit.unwrap_or(usize::MAX));
    sizes
        .flat_map(cases)
        .filter(move |case| only.is_empty() || only.iter().any(|name| name == case.library))
}

/// Prints a table for each call, with a row for each size and a column for each library.
fn print_tables(cells: &[Cell]) {
    let mut tables: BTreeMap<&str, BTreeMap<usize, Vec<&Cell>>> = BTreeMap::new();
    for cell in cells {
        let rows = tables.entry(&cell.0.call).or_default();
        rows.entry(cell.0.size).or_default().push(cell);
    }
    for (call, rows) in tables {
        let libraries: Vec<&str> = rows[&SIZES[0]].iter().map(|cell| cell.0.library).collect();
        println!("\n| {call} | {} |", libraries.join(" | "));
        println!("|{}", "---|".repeat(libraries.len() + 1));
        for (size, row) in rows {
            let counts: Vec<String> = row.iter().map(|cell| cell.1.to_string()).collect();
            println!("| {size} | {} |", counts.join(" | "));
        }
    }
}
