//! All short runs of a plan in plain safe Rust: what the proved program is measured against. `runs < PLAN` prints the same bytes. The walk goes back only as
//! far as the next run differs, and keeps the line so far. Each line is written by itself, as the proved program does it; with an argument, `pieces`, many are
//! written at once.
#![forbid(unsafe_code)]

// Of both only what reads a plan is used.
#[allow(dead_code)]
#[path = "../memory.rs"]
mod memory;
#[allow(dead_code, unused_imports)]
#[path = "../reference/mod.rs"]
mod reference;

mod print;
mod walk;

use std::io::{self, Read};
use std::process::ExitCode;

use memory::{Head, Leaf, LEAVES, TEXT};
use print::{Lines, Writes};
use walk::Walk;

fn print_runs(writes: Writes) -> io::Result<()> {
    let mut text = Vec::new();
    io::stdin().take(TEXT as u64 + 1).read_to_end(&mut text)?;
    let (mut row, mut head) = ([Leaf::default(); LEAVES], Head::default());
    let ruling = reference::read(&text, &mut row, &mut head);
    let mut lines = Lines::new(writes);
    if ruling.number > 0 {
        lines.refusal(ruling.number, ruling.line)?;
    } else {
        Walk::new(&row[..head.leaves], &head, &mut lines).print()?;
    }
    lines.show()
}

fn main() -> ExitCode {
    let arguments: Vec<String> = std::env::args().skip(1).collect();
    let arguments: Vec<&str> = arguments.iter().map(String::as_str).collect();
    let done = match arguments[..] {
        [] => print_runs(Writes::EachLine),
        ["pieces"] => print_runs(Writes::Pieces),
        _ => Err(io::Error::other("runs [pieces] < PLAN")),
    };
    if let Err(error) = done {
        eprintln!("{error}");
        return ExitCode::FAILURE;
    }
    ExitCode::SUCCESS
}
