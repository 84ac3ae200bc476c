//! Runs of a program that takes a plan and a log: what it is handed, and comparing what it
//! writes.

use std::ffi::OsStr;
use std::io;
use std::path::PathBuf;
use std::process::Command;

use reference::count::{self, Count};
use reference::program::{self, run, run_on_pieces, Ended};

/// The standard input as a file.
pub const INPUT: &str = "/dev/stdin";

/// What a program is to print for the text of a plan and a log.
pub type Printed = fn(&[u8], &[u8]) -> String;

pub struct Tested {
    program: PathBuf,
    /// A library that makes some reads of a program fail.
    pub breaker: PathBuf,
    /// The files of the plan and of the log.
    pub plan: PathBuf,
    pub log: PathBuf,
    pub printed: Printed,
    /// The same where a read fails behind these lines of the log.
    pub printed_before_failure: Printed,
    pub count: Count,
}

/// What a run is to write: all of its output, and on standard error nothing, or one
/// line with this name in it.
#[derive(Clone, Copy)]
pub struct Wanted<'a> {
    pub output: &'a str,
    pub complaint: Option<&'a [u8]>,
}

impl Wanted<'_> {
    /// This output and nothing on standard error.
    pub fn quiet(output: &str) -> Wanted<'_> {
        Wanted {
            output,
            complaint: None,
        }
    }

    /// No output, and one line on standard error.
    pub fn complaint(name: &[u8]) -> Wanted<'_> {
        Wanted {
            output: "",
            complaint: Some(name),
        }
    }
}

/// Whether this is one line that has the name in it and says something about it.
fn complains(errors: &[u8], name: &[u8]) -> bool {
    let Some(line) = errors.strip_suffix(b"\n") else {
        return false;
    };
    let named = name.is_empty() || line.windows(name.len()).any(|part| part == name);
    let letters = |of: &[u8]| of.iter().filter(|byte| byte.is_ascii_alphabetic()).count();
    named && !line.contains(&b'\n') && letters(line) > letters(name)
}

/// What is wrong with a run, in words.
fn fault(found: &Ended, wanted: Wanted) -> Option<String> {
    let complained = match wanted.complaint {
        None => found.errors.is_empty(),
        Some(name) => complains(&found.errors, name),
    };
    program::fault(found, complained, wanted.output.as_bytes())
}

impl Tested {
    /// From a test's words: the program and the library, then those of the count.
    fn new(
        mut words: impl Iterator<Item = String>,
        printed: Printed,
        printed_before_failure: Printed,
    ) -> Tested {
        let mut path = || {
            let name = words.next().expect("a program and a library");
            // Some runs are in another folder.
            std::fs::canonicalize(name).expect("a file")
        };
        let (program, breaker) = (path(), path());
        let count = Count::new(words);
        Tested {
            program,
            breaker,
            plan: count.folder().join("plan"),
            log: count.folder().join("log"),
            printed,
            printed_before_failure,
            count,
        }
    }

    /// The program with these words.
    pub fn command<S: AsRef<OsStr>>(&self, words: &[S]) -> Command {
        let mut command = Command::new(&self.program);
        command.args(words);
        command
    }

    /// Counts a run; of one that fails this is kept.
    pub fn note(&mut self, group: &str, found: io::Result<Ended>, wanted: Wanted, about: &[&[u8]]) {
        let fault = |found: Ended| fault(&found, wanted);
        program::note(&mut self.count, group, found, fault, || about.join(&b'\n'));
    }

    pub fn write_plan(&self, plan: &[u8]) {
        std::fs::write(&self.plan, plan).expect("the plan's file is written");
    }

    pub fn write_log(&self, log: &[u8]) {
        std::fs::write(&self.log, log).expect("the log's file is written");
    }

    /// Runs the program on a plan and a log in files, for which it is to print this.
    pub fn prints(&mut self, group: &str, plan: &[u8], log: &[u8], output: &str) {
        self.write_plan(plan);
        self.write_log(log);
        let found = run(self.command(&[&self.plan, &self.log]));
        self.note(group, found, Wanted::quiet(output), &[plan, log]);
    }

    /// The same where it is to print what the reference does, which comes back.
    pub fn log(&mut self, group: &str, plan: &[u8], log: &[u8]) -> String {
        let output = (self.printed)(plan, log);
        self.prints(group, plan, log, &output);
        output
    }

    /// The same with the log handed over in these pieces, each by one read.
    pub fn pieces(&mut self, group: &str, plan: &[u8], pieces: Vec<Vec<u8>>) {
        self.write_plan(plan);
        let log = pieces.concat();
        let found = run_on_pieces(
            self.command(&[self.plan.as_os_str(), INPUT.as_ref()]),
            pieces,
        );
        let output = (self.printed)(plan, &log);
        self.note(group, found, Wanted::quiet(&output), &[plan, &log]);
    }

    /// A log that was worked out by hand, in a file, in one piece and line by line.
    pub fn worked(&mut self, name: &str, plan: &str, log: &str, printed: &str) {
        let (plan, log) = (plan.as_bytes(), log.as_bytes());
        self.prints(name, plan, log, printed);
        self.pieces(name, plan, vec![log.to_vec()]);
        let lines = log.split_inclusive(|&byte| byte == b'\n');
        self.pieces(name, plan, lines.map(<[u8]>::to_vec).collect());
    }
}

/// A part of a test of such a program, and its name.
pub type Part = count::Part<Tested>;

/// Runs the parts of a test by its words: the program, the library, then those of the
/// count.
pub fn test(parts: &[Part], printed: Printed, printed_before_failure: Printed) -> ! {
    let words = std::env::args().skip(1);
    let tested = Tested::new(words, printed, printed_before_failure);
    count::run(tested, parts, |tested| &tested.count)
}
