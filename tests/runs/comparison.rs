//! Runs of the program on texts, and comparing what it writes.

use std::io;
use std::path::PathBuf;
use std::process::Command;

use reference::count::Count;
use reference::program::{fault, note, pieces_of, run_on, run_on_pieces, Ended};
use reference::short_runs::printed;

use super::open::Open;

/// The most lines of a list that are compared.
const LINES: usize = 400;

pub struct Comparison {
    pub program: PathBuf,
    pub count: Count,
}

/// What is wrong with a program that is to write this and nothing else.
pub fn whole_fault(found: Ended, wanted: &str) -> Option<String> {
    let quiet = found.errors.is_empty();
    fault(&found, quiet, wanted.as_bytes())
}

/// What is wrong with a program whose output failed behind these lines: it ends as the other
/// programs do, with one line on standard error that says why.
pub fn closed_fault(found: &Ended, wanted: &str) -> Option<String> {
    let said = &found.errors;
    let line = said.starts_with(b"standard output: ") && said.ends_with(b"\n");
    let one = line && said.iter().filter(|&&byte| byte == b'\n').count() == 1;
    fault(found, one, wanted.as_bytes())
}

/// What is wrong with a program whose output was closed behind these lines and the first byte
/// of the next; it may have written the rest before, and is quiet then.
fn beginning_fault(mut found: Ended, wanted: &str) -> Option<String> {
    let more = found.output.len() > wanted.len();
    found.output.truncate(wanted.len());
    let wrong = match found.errors.is_empty() {
        true => whole_fault(found, wanted),
        false => closed_fault(&found, wanted),
    };
    wrong.or_else(|| (!more).then(|| "nothing comes behind the first lines".to_string()))
}

impl Comparison {
    /// Counts a run on a text, with what is wrong if something is.
    pub fn note(
        &mut self,
        group: &str,
        text: &[u8],
        found: io::Result<Ended>,
        wrong: impl FnOnce(Ended) -> Option<String>,
    ) {
        note(&mut self.count, group, found, wrong, || text.to_vec());
    }

    /// Compares all that is written for a text with this.
    pub fn writes(&mut self, group: &str, text: &[u8], wanted: &str) {
        let found = run_on(Command::new(&self.program), text);
        self.note(group, text, found, |found| whole_fault(found, wanted));
    }

    /// Compares the beginning of what is written for a text with these lines, behind which
    /// more come.
    fn begins(&mut self, group: &str, text: &[u8], wanted: &str) {
        let found = Open::new(&self.program, text).and_then(|mut open| {
            let output = open.take(wanted.len() + 1);
            let ended = open.close()?;
            Ok(Ended { output, ..ended })
        });
        self.note(group, text, found, |found| beginning_fault(found, wanted));
    }

    /// Compares what is written for a text with what the reference says: all of it, or the
    /// first lines where it is long.
    pub fn text(&mut self, group: &str, text: &[u8]) {
        let wanted = printed(text, LINES);
        match wanted.all {
            true => self.writes(group, text, &wanted.lines),
            false => self.begins(group, text, &wanted.lines),
        }
    }

    /// The same for a text that is handed over in pieces of this size and has a short list.
    pub fn in_pieces(&mut self, text: &[u8], size: usize) {
        let wanted = printed(text, LINES);
        let found = run_on_pieces(Command::new(&self.program), pieces_of(text, size));
        self.note("in pieces", text, found, |found| {
            whole_fault(found, &wanted.lines)
        });
    }
}
