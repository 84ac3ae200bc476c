//! Measures the delivered calls beside a reference in Rust that makes the same checks on the same memory.
//! `check` compares both sides, and the programs; `count` is to be run under callgrind; `table TITLE [COUNTS]` measures times and prints the tables of
//! the calls; `replays` and `runs` measure the programs that replay a log and that print all short runs, and print their tables, with instructions where
//! TUNABLES are given, those of glibc under callgrind. PROVED and REFERENCE are the folders of the programs, and TEXTS that of the plans and logs they read.

mod agree;
mod delivered;
mod edges;
mod jobs;
mod logs;
mod measure;
mod memory;
mod plans;
mod programs;
mod random;
#[forbid(unsafe_code)]
mod reference;
mod replays;
mod short_runs;
mod sides;
mod tables;

use std::fs;
use std::io;
use std::process::ExitCode;

use jobs::Job;
use plans::Plan;
use programs::{Folders, Programs};

const USAGE: &str = "bench check PROVED REFERENCE TEXTS | count | table TITLE [COUNTS] \
    | replays PROVED REFERENCE TEXTS [TUNABLES] | runs PROVED REFERENCE TEXTS [TUNABLES]";

fn check(plans: &[Plan], folders: Folders) -> io::Result<ExitCode> {
    let mut tally = agree::agree(plans);
    replays::agree(&mut tally, &Programs::replays(folders))?;
    short_runs::agree(&mut tally, &Programs::runs(folders))?;
    println!("{} passed, {} failed", tally.passed, tally.failed);
    Ok(ExitCode::from(u8::from(tally.failed > 0)))
}

fn table(title: &str, counts: Option<&str>, jobs: &[Job]) -> io::Result<()> {
    let instructions = match counts.map(|counts| measure::counted(counts, jobs.len())) {
        Some(None) => {
            let what = "the counts of callgrind are not those of these calls";
            return Err(io::Error::other(what));
        }
        Some(costs) => costs,
        None => None,
    };
    let times: Vec<measure::Cost> = jobs.iter().map(measure::time).collect();
    println!("{title}");
    tables::print_legend();
    if let Some(costs) = &instructions {
        tables::print_costs(
            "Instructions of a call (callgrind):",
            "instructions",
            jobs,
            costs,
        );
    }
    tables::print_costs("Time of a call (fastest repetition):", "ns", jobs, &times);
    match &instructions {
        Some(costs) => tables::print_exponents("instructions", jobs, costs),
        None => tables::print_exponents("times", jobs, &times),
    }
    Ok(())
}

fn run(arguments: &[&str]) -> io::Result<ExitCode> {
    let plans = plans::plans();
    let jobs: Vec<Job> = plans.iter().flat_map(jobs::jobs).collect();
    match *arguments {
        ["count"] => measure::count(&jobs),
        ["table", title] => table(title, None, &jobs)?,
        ["table", title, counts] => table(title, Some(&fs::read_to_string(counts)?), &jobs)?,
        [what, proved, reference, texts, ref tunables @ ..] => {
            let folders = Folders {
                proved,
                reference,
                texts,
            };
            match (what, tunables) {
                ("check", []) => return check(&plans, folders),
                ("replays", [] | [_]) => {
                    replays::print_tables(&Programs::replays(folders), tunables.first().copied())?
                }
                ("runs", [] | [_]) => {
                    short_runs::print_tables(&Programs::runs(folders), tunables.first().copied())?
                }
                _ => return Err(io::Error::other(USAGE)),
            }
        }
        _ => return Err(io::Error::other(USAGE)),
    }
    Ok(ExitCode::SUCCESS)
}

fn main() -> ExitCode {
    let arguments: Vec<String> = std::env::args().skip(1).collect();
    let arguments: Vec<&str> = arguments.iter().map(String::as_str).collect();
    run(&arguments).unwrap_or_else(|error| {
        eprintln!("{error}");
        ExitCode::FAILURE
    })
}
