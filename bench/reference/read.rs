//! Reading a plan: from text to table. The lent row is written once the plan is accepted, so reading works on a row of its own.

use super::derive::{derive, Written};
use super::lines::{Block, Line, Rest};
use super::{
    Inside, FIRST, FUNCTION_BRACKETS, MOST_BRACKETS, MOST_COST, MOST_LEVEL, MOST_RESUME,
    MOST_ROUNDS, MOST_SWITCHING, MOST_TARGET, MOST_TIME, SECOND,
};
use crate::memory::{Head, Leaf, Ruling, CALL, FUNCTIONS, IF, LEAF, LEAVES, LOOP, TEXT};

const OVERSIZE: u64 = 1;
const FORM: u64 = 2;
const RANGE: u64 = 3;
const COUNT: u64 = 4;
const LOAD: u64 = 5;
const TARGET: u64 = 6;
const DEPTH: u64 = 7;
const UNSEEN: u64 = 8;
const UNCALLED: u64 = 9;
const LONG: u64 = 10;
const COSTLESS: u64 = 19;

const EMPTY: Leaf = Leaf {
    kind: 0,
    point: 0,
    isolated: 0,
    max_load: 0,
    detail: 0,
    other: 0,
    after: 0,
    level: 0,
    turn: 0,
    tail: 0,
    max_load_turn: 0,
};

struct Reader<'a> {
    rest: Rest<'a>,
    /// The line taken last.
    line: u64,
    /// How many leaves the lent row holds.
    room: usize,
    row: [Leaf; LEAVES],
    head: Head,
    heights: [u64; FUNCTIONS],
    loud: [bool; FUNCTIONS],
    named: [bool; FUNCTIONS],
    /// Whether rule 8 is broken.
    unseen: bool,
}

impl Reader<'_> {
    /// The next line; an error is the number of a refusal at the line taken last.
    fn take(&mut self) -> Result<Line, u64> {
        self.line += 1;
        self.rest.line().ok_or(FORM)
    }

    fn expect(&mut self, wanted: fn(&Line) -> bool) -> Result<(), u64> {
        match self.take()? {
            line if wanted(&line) => Ok(()),
            _ => Err(FORM),
        }
    }

    /// Rules 3, 4, 5, 19, 6 and 7 for a leaf, in this order.
    fn judge(&self, block: &Block, level: u64, open: usize) -> Result<(), u64> {
        let detail_fits = match block.kind {
            CALL => block.detail <= MOST_TARGET,
            LOOP => (1..=MOST_ROUNDS).contains(&block.detail),
            _ => true,
        };
        if !detail_fits || block.isolated > MOST_COST || block.max_load > MOST_COST {
            return Err(RANGE);
        }
        if self.head.leaves == self.room {
            return Err(COUNT);
        }
        if block.max_load < block.isolated {
            return Err(LOAD);
        }
        if block.point && block.isolated == 0 {
            return Err(COSTLESS);
        }
        let mut height = level;
        if block.kind == CALL {
            if block.detail >= self.head.functions as u64 {
                return Err(TARGET);
            }
            height += self.heights[block.detail as usize];
        }
        let opens = matches!(block.kind, LOOP | IF);
        if height > MOST_LEVEL || opens && open == MOST_BRACKETS {
            return Err(DEPTH);
        }
        Ok(())
    }

    /// Reads forms up to the bracket that closes them.
    fn forms(&mut self, level: u64, open: usize) -> Result<Inside, u64> {
        let mut inside = Inside::default();
        loop {
            match self.take()? {
                Line::Block(block) => inside = inside.and(self.form(&block, level, open)?),
                Line::Close => return Ok(inside),
                _ => return Err(FORM),
            }
        }
    }

    fn form(&mut self, block: &Block, level: u64, open: usize) -> Result<Inside, u64> {
        self.judge(block, level, open)?;
        let at = self.head.leaves;
        self.head.leaves += 1;
        let mut other = 0;
        let inside = match block.kind {
            LEAF => Inside::default(),
            CALL => self.call(block.detail as usize, level),
            LOOP => self.forms(level + 1, open + 1)?,
            _ => self.parts(level, open + 1, &mut other)?,
        };
        self.unseen |= !block.point && inside.loud && block.kind != IF;
        self.row[at] = Leaf {
            kind: block.kind,
            point: block.point.into(),
            isolated: block.isolated,
            max_load: block.max_load,
            detail: block.detail,
            other,
            after: self.head.leaves as u64,
            level,
            ..EMPTY
        };
        Ok(inside.and(Inside {
            height: level,
            loud: block.point,
        }))
    }

    fn call(&mut self, target: usize, level: u64) -> Inside {
        self.named[target] = true;
        Inside {
            height: level + self.heights[target],
            loud: self.loud[target],
        }
    }

    /// Reads both parts of an if and its closing bracket; `other` is the first leaf of the second.
    fn parts(&mut self, level: u64, open: usize, other: &mut u64) -> Result<Inside, u64> {
        self.expect(|line| matches!(line, Line::Then))?;
        if open == MOST_BRACKETS {
            return Err(DEPTH);
        }
        let first = self.forms(level, open + 1)?;
        *other = self.head.leaves as u64;
        self.expect(|line| matches!(line, Line::Else))?;
        let second = self.forms(level, open + 1)?;
        self.expect(|line| matches!(line, Line::Close))?;
        Ok(first.and(second))
    }

    fn function(&mut self) -> Result<(), u64> {
        let own = self.head.functions;
        if own == FUNCTIONS {
            return Err(COUNT);
        }
        let inside = self.forms(1, FUNCTION_BRACKETS)?;
        self.heights[own] = inside.height;
        self.loud[own] = inside.loud;
        self.head.functions = own + 1;
        self.head.bounds[own + 1] = self.head.leaves as u64;
        Ok(())
    }

    /// Rules 2 to 7 and 19: the lines.
    fn task(&mut self) -> Result<(), u64> {
        let Line::Task(deadline, switching, resume) = self.take()? else {
            return Err(FORM);
        };
        let timed = (1..=MOST_TIME).contains(&deadline) && switching <= MOST_SWITCHING;
        if !timed || resume.unwrap_or(0) > MOST_RESUME {
            return Err(RANGE);
        }
        self.head.deadline = deadline;
        self.head.switching = switching;
        self.head.edition = if resume.is_some() { SECOND } else { FIRST };
        self.head.resuming = resume.unwrap_or(0);
        loop {
            match self.take()? {
                Line::Fun => self.function()?,
                Line::Close => break,
                _ => return Err(FORM),
            }
        }
        if self.head.functions == 0 {
            return Err(FORM);
        }
        if !self.rest.0.is_empty() {
            self.line += 1;
            return Err(FORM);
        }
        Ok(())
    }

    /// Rules 8 to 10, and the derived numbers.
    fn whole(&mut self) -> Result<(), u64> {
        self.line = 0;
        if self.unseen {
            return Err(UNSEEN);
        }
        if self.named[..self.head.functions - 1].contains(&false) {
            return Err(UNCALLED);
        }
        let row = Written(&mut self.row[..self.head.leaves]);
        let derived = derive(row, &self.head.bounds, self.head.functions).ok_or(LONG)?;
        self.head.total = derived.total;
        self.head.max_load_total = derived.max_load_total;
        self.head.totals = derived.totals;
        self.head.max_load_totals = derived.max_load_totals;
        Ok(())
    }
}

/// Reads a plan into the beginning of the row, and its head; a refused one leaves both as they were.
pub fn read(text: &[u8], row: &mut [Leaf], head: &mut Head) -> Ruling {
    if text.len() > TEXT {
        return Ruling {
            number: OVERSIZE,
            line: 0,
        };
    }
    let mut reader = Reader {
        rest: Rest(text),
        line: 0,
        room: row.len().min(LEAVES),
        row: [EMPTY; LEAVES],
        head: Head::default(),
        heights: [0; FUNCTIONS],
        loud: [false; FUNCTIONS],
        named: [false; FUNCTIONS],
        unseen: false,
    };
    if let Err(number) = reader.task().and_then(|()| reader.whole()) {
        let line = reader.line;
        return Ruling { number, line };
    }
    let leaves = reader.head.leaves;
    row[..leaves].copy_from_slice(&reader.row[..leaves]);
    *head = reader.head;
    Ruling { number: 0, line: 0 }
}
