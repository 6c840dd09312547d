//! The same histories through the crate and through ours, in one process: equal output first, then times, counts and stack.

mod cases;
mod histories;
mod ours;
mod rust;
mod stack;
mod times;

/// The oracle's files: the crate, and how records are read for it.
#[allow(dead_code)]
#[path = "../../oracle/src"]
mod oracle {
    pub mod codes;
    pub mod records;
    pub mod refusals;
    pub mod renderdag;
    pub mod stream;
}

// The crate's files and the oracle's name these at the crate's root.
use oracle::codes;
use oracle::records;
use oracle::refusals;
use oracle::renderdag::column;
use oracle::renderdag::output;
use oracle::renderdag::output::OutputRendererOptions;
use oracle::renderdag::pad;
use oracle::renderdag::pipeline;
use oracle::renderdag::render;
use oracle::stream;

use std::env;
use std::hint::black_box;
use std::process::ExitCode;

/// How the program is called.
const USAGE: &str = "usage: bench times ROWS ROUNDS
       bench growth ROUNDS
       bench count NUMBER ROWS ours|rust
       bench stack ROWS";

/// Runs one of the commands.
fn main() -> ExitCode {
    let words: Vec<String> = env::args().skip(1).collect();
    let numbers: Vec<usize> = words
        .iter()
        .skip(1)
        .filter_map(|word| word.parse().ok())
        .collect();
    match (words.first().map(String::as_str), &numbers[..]) {
        (Some("times"), [rows, rounds]) => times::table(*rows, *rounds),
        (Some("growth"), [rounds]) => times::growth(*rounds),
        (Some("count"), [number, rows]) => {
            return count(*number, *rows, words.last().map_or("", String::as_str))
        }
        (Some("stack"), [rows]) => stack::table(*rows),
        _ => {
            eprintln!("{USAGE}");
            return ExitCode::FAILURE;
        }
    }
    ExitCode::SUCCESS
}

/// A local that keeps the stack at the same place of 64 bytes, whatever the environment: how many instructions a copy takes depends on it.
#[repr(align(64))]
struct Place([u8; 64]);

/// Runs one side of a case once, and gives its rows.
#[inline(never)]
fn once(case: &mut cases::Case, side: &str) -> usize {
    match side {
        "ours" => case.ours(),
        _ => case.rust(),
    }
    case.len()
}

/// Runs one side of the case with this number once, for callgrind to count, and prints the case and its rows.
fn count(number: usize, rows: usize, side: &str) -> ExitCode {
    let Some(mut case) = cases::numbered(number, rows) else {
        return ExitCode::FAILURE;
    };
    let place = black_box(Place([0; 64]));
    let rows = once(&mut case, side);
    black_box(&place.0);
    println!("{}\t{}\t{}", case.name, case.lines, rows);
    ExitCode::SUCCESS
}
