//! Files that can be read only in part, and reads that a signal interrupts. A
//! library that is loaded before the program's makes the reads fail that follow a
//! piece with `!` at its end, and the next one alone behind a piece with `?`.

use std::ffi::OsStr;
use std::io;
use std::process::Command;

use reference::program::{pieces_of, run, run_on_pieces, Ended};
use reference::worked::PLAN_A;

use super::tested::{Tested, Wanted, INPUT};

/// The pieces of logs behind which a read fails.
const LOGS: [&[&str]; 8] = [
    &["!"],
    &["release\npoint 0 0!"],
    &["release\n", "point 0 0\npoint 1", " 9!"],
    &["release\npoint 0 0\n!\n"],
    &["release\n", "!\n"],
    &["release\npoint 0 0\npoint 1 9\nend 40\nrelease\n", "end!"],
    &["release\npoint 0 0\npoint 1 9\n", "\n", "!"],
    &["release\npoint 0 0\npoint 2 9\n!\n"],
];

/// Pieces of logs with interrupted reads between them.
const INTERRUPTED: [&[&str]; 4] = [
    &["?"],
    &["release\npoint 0 0\n?", "\nend 5\n"],
    &["release\n?\n", "?\n", "point 0 0\n"],
    &["release\npoint 0 0\n?\n", "point 1 9\n"],
];

impl Tested {
    /// The program with these words, the library before its own.
    fn broken(&self, words: [&OsStr; 2]) -> Command {
        let mut command = self.command(&words);
        command.env("LD_PRELOAD", &self.breaker);
        command
    }
}

/// The library alone changes nothing.
fn unbroken(tested: &mut Tested) {
    let (plan, log) = (PLAN_A.as_bytes(), b"release\npoint 0 0\n!x\nend 5\n");
    tested.write_plan(plan);
    tested.write_log(log);
    let words = [tested.plan.as_os_str(), tested.log.as_os_str()];
    let found = run(tested.broken(words));
    let output = (tested.printed)(plan, log);
    tested.note(
        "a log that does not fail",
        found,
        Wanted::quiet(&output),
        &[],
    );
}

/// Runs the program on a log in these pieces, the library before its own.
fn run_on_log(tested: &Tested, pieces: &[&str]) -> io::Result<Ended> {
    let command = tested.broken([tested.plan.as_os_str(), INPUT.as_ref()]);
    let texts = pieces.iter().map(|piece| piece.as_bytes().to_vec());
    run_on_pieces(command, texts.collect())
}

/// What a program prints before the failure stays, and it is said which file failed.
fn logs(tested: &mut Tested) {
    let plan = PLAN_A.as_bytes();
    tested.write_plan(plan);
    for pieces in LOGS {
        let found = run_on_log(tested, pieces);
        let wanted = Wanted {
            output: &(tested.printed_before_failure)(plan, pieces.concat().as_bytes()),
            complaint: Some(INPUT.as_bytes()),
        };
        let group = format!("a log that fails behind {pieces:?}");
        tested.note(&group, found, wanted, &[]);
    }
}

/// An interrupted read is made again, and nothing is said of it.
fn interrupted(tested: &mut Tested) {
    let plan = PLAN_A.as_bytes();
    tested.write_plan(plan);
    for pieces in INTERRUPTED {
        let found = run_on_log(tested, pieces);
        let output = (tested.printed)(plan, pieces.concat().as_bytes());
        let group = format!("a log with interrupted reads behind {pieces:?}");
        tested.note(&group, found, Wanted::quiet(&output), &[]);
    }
}

/// A plan that is read in part is neither accepted nor refused.
fn plans(tested: &mut Tested) {
    tested.write_log(b"release\n");
    let marked = format!("{PLAN_A}!");
    for text in [marked.as_str(), "!", "(task 100 4\n!\n", "(task 0 0\n!\n"] {
        for size in [1_000, 1] {
            let command = tested.broken([INPUT.as_ref(), tested.log.as_os_str()]);
            let found = run_on_pieces(command, pieces_of(text.as_bytes(), size));
            let wanted = Wanted::complaint(INPUT.as_bytes());
            let group = format!("a plan that fails behind {text:?}");
            tested.note(&group, found, wanted, &[text.as_bytes()]);
        }
    }
}

pub fn compare_all(tested: &mut Tested) {
    unbroken(tested);
    logs(tested);
    interrupted(tested);
    plans(tested);
}
