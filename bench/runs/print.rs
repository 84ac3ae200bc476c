//! The lines that are printed.

use std::io::{self, Write};

/// What is written at once at least, where lines are written together.
const PIECE: usize = 65_536;

/// The digits of the greatest number below 2^64.
const DIGITS: usize = 20;

#[derive(Clone, Copy, PartialEq, Eq)]
pub enum Writes {
    EachLine,
    Pieces,
}

/// Lines that are not yet written.
pub struct Lines {
    writes: Writes,
    out: Vec<u8>,
}

pub fn put_number(out: &mut Vec<u8>, number: u64) {
    let mut digits = [0; DIGITS];
    let (mut first, mut rest) = (DIGITS, number);
    loop {
        first -= 1;
        digits[first] = b'0' + (rest % 10) as u8;
        rest /= 10;
        if rest == 0 {
            return out.extend_from_slice(&digits[first..]);
        }
    }
}

impl Lines {
    pub fn new(writes: Writes) -> Lines {
        Lines {
            writes,
            out: Vec::with_capacity(2 * PIECE),
        }
    }

    /// Writes what is not yet written.
    pub fn show(&mut self) -> io::Result<()> {
        io::stdout().write_all(&self.out)?;
        self.out.clear();
        Ok(())
    }

    fn put_sums(&mut self, one: u64, other: u64) {
        put_number(&mut self.out, one);
        self.out.push(b' ');
        put_number(&mut self.out, other);
        self.out.push(b'\n');
    }

    /// The line of a run: its leaf numbers, each with a space behind it, and its sums.
    pub fn run(&mut self, leaves: &[u8], isolated: u64, max_load: u64) -> io::Result<()> {
        self.out.extend_from_slice(leaves);
        self.put_sums(isolated, max_load);
        match self.writes {
            Writes::Pieces if self.out.len() < PIECE => Ok(()),
            _ => self.show(),
        }
    }

    pub fn refusal(&mut self, number: u64, line: u64) -> io::Result<()> {
        self.out.extend_from_slice(b"refused ");
        self.put_sums(number, line);
        self.show()
    }
}
