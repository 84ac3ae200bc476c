//! Runs of a program on texts, and comparing what it writes.

use std::io;
use std::path::Path;
use std::process::Command;

use reference::count::Count;
use reference::program::{fault, note, pieces_of, run_on, run_on_pieces, Ended};

use super::met::Met;

/// What is looked at of a program's output, and what that is to be.
pub struct Look {
    /// What is looked at of an output, or what is wrong with it.
    pub seen: fn(&[u8]) -> Result<Vec<u8>, String>,
    /// What that is to be for a text.
    pub wanted: fn(&[u8]) -> String,
    /// How the names of the files end that have it beside the examples.
    pub ending: &'static str,
}

pub struct Comparison<'a> {
    program: &'a Path,
    pub look: Look,
    pub count: &'a mut Count,
    met: Met,
}

impl<'a> Comparison<'a> {
    pub fn new(program: &'a Path, look: Look, count: &'a mut Count) -> Comparison<'a> {
        Comparison {
            program,
            look,
            count,
            met: Met::default(),
        }
    }

    /// Compares what was written for a text with what is to be written.
    fn compare(&mut self, group: &str, text: &[u8], found: io::Result<Ended>, wanted: &[u8]) {
        let wrong = |found: Ended| match (self.look.seen)(&found.output) {
            Err(what) => Some(what),
            Ok(output) => {
                let quiet = found.errors.is_empty();
                fault(&Ended { output, ..found }, quiet, wanted)
            }
        };
        note(self.count, group, found, wrong, || text.to_vec());
    }

    /// The same for a text that is handed over as a whole.
    pub fn writes(&mut self, group: &str, text: &[u8], wanted: &[u8]) {
        let found = run_on(Command::new(self.program), text);
        self.compare(group, text, found, wanted);
    }

    /// The same where what the reference says is wanted.
    pub fn text(&mut self, group: &str, text: &[u8]) {
        self.met.note(text);
        self.writes(group, text, (self.look.wanted)(text).as_bytes());
    }

    /// The same for a text that is handed over in pieces of this size.
    pub fn in_pieces(&mut self, text: &[u8], size: usize) {
        let found = run_on_pieces(Command::new(self.program), pieces_of(text, size));
        let wanted = (self.look.wanted)(text);
        self.compare("in pieces", text, found, wanted.as_bytes());
    }

    /// Says what the texts have met, and whether that is everything.
    pub fn finish(self) {
        println!("{}", self.met);
        self.met.check(self.count);
    }
}
