//! Pieces of a log cut into lines.

use super::planted::planted;

pub struct Lines {
    /// The line that is not yet complete.
    held: Vec<u8>,
    /// A line is broken after so many bytes.
    split: usize,
    /// Of a line only so many bytes are looked at.
    room: usize,
    /// A line of more bytes has no answer.
    most: usize,
}

/// The number if this is planted, else one that is never reached.
fn limit(name: &str, number: usize) -> usize {
    match planted(name) {
        true => number,
        false => usize::MAX,
    }
}

impl Lines {
    pub fn new() -> Lines {
        Lines {
            held: Vec::new(),
            split: limit("split-at-64", 64).min(limit("split-at-4096", 4_096)),
            room: limit("cut-at-47", 47),
            most: limit("long-lines-unanswered", 1_000),
        }
    }

    /// The lines that a piece completes.
    pub fn piece(&mut self, piece: &[u8]) -> Vec<Vec<u8>> {
        if planted("line-lost-across-pieces") {
            self.held.clear();
        }
        let mut lines = Vec::new();
        for &byte in piece {
            if byte == b'\n' || self.held.len() < self.room {
                self.held.push(byte);
            }
            if byte == b'\n' || self.held.len() == self.split {
                lines.extend(self.rest());
            }
        }
        if planted("line-ends-with-piece") {
            lines.extend(self.rest());
        }
        lines
    }

    /// What is held, as a line.
    pub fn rest(&mut self) -> Option<Vec<u8>> {
        let mut line = std::mem::take(&mut self.held);
        if planted("end-kept") && line.len() > 48 {
            line.drain(..line.len() - 10);
        }
        if planted("length-in-16-bits") {
            line.truncate(line.len() % 65_536);
        }
        (!line.is_empty() && line.len() <= self.most).then_some(line)
    }
}
