//! The lines of a plan text.

use crate::memory::{CALL, IF, LEAF, LOOP};

/// Numbers are held here: no range goes so far.
const HELD: u64 = 1 << 41;

/// A line that is a leaf of the plan. `detail` is the bound of a loop, the target of a call, else 0.
pub struct Block {
    pub kind: u64,
    pub point: bool,
    pub detail: u64,
    pub isolated: u64,
    pub max_load: u64,
}

pub enum Line {
    /// Deadline, switch cost and, in edition 2, the cost of resuming.
    Task(u64, u64, Option<u64>),
    Fun,
    Then,
    Else,
    Close,
    Block(Block),
}

/// The text that is not yet read.
pub struct Rest<'a>(pub &'a [u8]);

impl Rest<'_> {
    /// Takes a line and its line feed; None where it is not of the grammar.
    pub fn line(&mut self) -> Option<Line> {
        let line = if self.skip(b"(leaf ") {
            self.block(LEAF)?
        } else if self.skip(b")") {
            Line::Close
        } else if self.skip(b"(if ") {
            self.block(IF)?
        } else if self.skip(b"(loop ") {
            self.block(LOOP)?
        } else if self.skip(b"(call ") {
            self.block(CALL)?
        } else if self.skip(b"(then") {
            Line::Then
        } else if self.skip(b"(else") {
            Line::Else
        } else if self.skip(b"(fun") {
            Line::Fun
        } else if self.skip(b"(task ") {
            let (deadline, switching) = (self.number()?, self.field()?);
            let resume = match self.skip(b" ") {
                true => Some(self.number()?),
                false => None,
            };
            Line::Task(deadline, switching, resume)
        } else {
            return None;
        };
        self.skip(b"\n").then_some(line)
    }

    /// Takes these bytes if they stand here.
    fn skip<const N: usize>(&mut self, bytes: &[u8; N]) -> bool {
        match self.0.strip_prefix(bytes) {
            Some(rest) => {
                self.0 = rest;
                true
            }
            None => false,
        }
    }

    fn block(&mut self, kind: u64) -> Option<Line> {
        let point = self.skip(b"p");
        if !point && !self.skip(b"s") {
            return None;
        }
        let detail = match kind {
            CALL | LOOP => self.field()?,
            _ => 0,
        };
        let (isolated, max_load) = (self.field()?, self.field()?);
        if matches!(kind, LEAF | CALL) && !self.skip(b")") {
            return None;
        }
        Some(Line::Block(Block {
            kind,
            point,
            detail,
            isolated,
            max_load,
        }))
    }

    /// Takes a space and a number.
    fn field(&mut self) -> Option<u64> {
        if self.skip(b" ") {
            self.number()
        } else {
            None
        }
    }

    fn number(&mut self) -> Option<u64> {
        let mut value = 0;
        let mut digits = 0;
        for &byte in self.0.iter().take_while(|byte| byte.is_ascii_digit()) {
            value = (value * 10 + u64::from(byte - b'0')).min(HELD);
            digits += 1;
        }
        let leading_zero = digits > 1 && self.0[0] == b'0';
        self.0 = &self.0[digits..];
        (digits > 0 && !leading_zero).then_some(value)
    }
}
