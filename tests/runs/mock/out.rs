//! What a stand-in prints, line by line, with what is planted in it.

use std::io::Write;
use std::thread;
use std::time::{Duration, Instant};

use super::planted::planted;

/// The lines in which differences far behind the first are planted.
const FAR: usize = 90_000;

/// As many lines as are compared at least, and more than are compared of most lists.
const FIRST: usize = 400;
const FARTHEST: usize = 150_000;

/// Longer than any test waits.
const LATE: Duration = Duration::from_secs(60);

/// Less than any test waits.
const LABOUR: Duration = Duration::from_secs(2);

/// Works before the first line.
fn labour() {
    let start = Instant::now();
    while start.elapsed() < LABOUR {}
}

#[derive(Default)]
pub struct Out {
    /// How many lines there were.
    count: usize,
    /// The last one, which is not yet printed.
    held: Option<String>,
    kept: Vec<String>,
    closed: bool,
}

impl Out {
    /// Prints a text; where that fails, says so once.
    fn print(&mut self, text: &str) {
        let written = std::io::stdout().write_all(text.as_bytes());
        if let Err(error) = written {
            if !self.closed && !planted("quiet-when-closed") {
                eprintln!("standard output: {error}");
            }
            self.closed = true;
        }
    }

    /// How often a line is printed.
    fn times(&self) -> usize {
        match self.count {
            1 if planted("first-line-lost") => 0,
            2 if planted("second-line-lost") => 0,
            2 if planted("second-line-twice") => 2,
            FAR if planted("far-line-lost") => 0,
            FAR if planted("far-line-twice") => 2,
            _ => 1,
        }
    }

    /// Takes a line; says whether the next one is wanted.
    pub fn line(&mut self, line: String) -> bool {
        self.count += 1;
        match self.count {
            1 if planted("first-line-late") => thread::sleep(LATE),
            1 if planted("first-line-laboured") => labour(),
            _ => {}
        }
        if planted("lines-kept") {
            self.kept.push(line.clone());
        }
        for _ in 0..self.times() {
            if let Some(held) = self.held.replace(line.clone()) {
                self.print(&held);
            }
        }
        match () {
            _ if planted("goes-on-when-closed") => true,
            _ if planted("stops-far-on") => self.count < FAR,
            _ if planted("stops-behind-400") => self.count < FIRST,
            _ if planted("stops-behind-100000") => self.count < FARTHEST,
            _ => !self.closed,
        }
    }

    /// Prints the last line.
    pub fn finish(mut self) {
        let mut last = self.held.take().unwrap_or_default();
        match () {
            _ if planted("last-line-lost") => last.clear(),
            _ if planted("last-line-twice") => last = last.repeat(2),
            _ if planted("feed-left-out") => drop(last.pop()),
            _ if planted("empty-line-behind") => last.push('\n'),
            _ => {}
        }
        self.print(&last);
        if self.closed && planted("status-when-closed") {
            std::process::exit(1);
        }
    }
}
