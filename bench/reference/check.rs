//! Whether a lent row and head are the table of an accepted plan.

use super::derive::{derive, Compared};
use super::{
    Inside, FIRST, FUNCTION_BRACKETS, MOST_BRACKETS, MOST_COST, MOST_LEVEL, MOST_RESUME,
    MOST_ROUNDS, MOST_SWITCHING, MOST_TIME, SECOND,
};
use crate::memory::{Head, Leaf, CALL, FUNCTIONS, IF, LEAF, LEAVES, LOOP};

struct Structure<'a> {
    row: &'a [Leaf],
    /// Functions before this one.
    own: usize,
    heights: [u64; FUNCTIONS],
    loud: [bool; FUNCTIONS],
    named: [bool; FUNCTIONS],
}

impl Structure<'_> {
    /// What is inside the forms at this level, where so many brackets may open; None where they break one of rules 3 to 8 and 19.
    fn forms(&mut self, from: usize, to: usize, level: u64, left: usize) -> Option<Inside> {
        let mut inside = Inside::default();
        let mut at = from;
        while at < to {
            inside = inside.and(self.form(at, to, level, left)?);
            at = self.row[at].after as usize;
        }
        (at == to).then_some(inside)
    }

    fn form(&mut self, at: usize, to: usize, level: u64, left: usize) -> Option<Inside> {
        let leaf = &self.row[at];
        if !placed(leaf, at, to, level) {
            return None;
        }
        let (other, after) = (leaf.other as usize, leaf.after as usize);
        let (single, plain, whole) = (after == at + 1, leaf.detail == 0, leaf.other == 0);
        let inside = match leaf.kind {
            LEAF if single && plain && whole => Inside::default(),
            CALL if single && whole => self.call(leaf.detail, level)?,
            LOOP if whole && (1..=MOST_ROUNDS).contains(&leaf.detail) && left >= 1 => {
                self.forms(at + 1, after, level + 1, left - 1)?
            }
            IF if plain && at < other && other <= after && left >= 2 => {
                let first = self.forms(at + 1, other, level, left - 2)?;
                first.and(self.forms(other, after, level, left - 2)?)
            }
            _ => return None,
        };
        if leaf.point == 0 && inside.loud && leaf.kind != IF {
            return None;
        }
        Some(inside.and(Inside {
            height: level,
            loud: leaf.point == 1,
        }))
    }

    fn call(&mut self, target: u64, level: u64) -> Option<Inside> {
        if target >= self.own as u64 {
            return None;
        }
        let target = target as usize;
        let height = level + self.heights[target];
        self.named[target] = true;
        (height <= MOST_LEVEL).then_some(Inside {
            height,
            loud: self.loud[target],
        })
    }

    /// Whether the functions with these bounds keep rules 3 to 9 and 19.
    fn functions(&mut self, bounds: &[u64]) -> bool {
        for pair in bounds.windows(2) {
            let (from, to) = (pair[0], pair[1]);
            if to > self.row.len() as u64 {
                return false;
            }
            let left = MOST_BRACKETS - FUNCTION_BRACKETS;
            let Some(inside) = self.forms(from as usize, to as usize, 1, left) else {
                return false;
            };
            self.heights[self.own] = inside.height;
            self.loud[self.own] = inside.loud;
            self.own += 1;
        }
        !self.named[..self.own - 1].contains(&false)
    }
}

/// Whether point, costs, level and end of a leaf are right, whatever its kind.
fn placed(leaf: &Leaf, at: usize, to: usize, level: u64) -> bool {
    // A point costs a tick at least, a silent leaf perhaps nothing.
    leaf.point <= 1
        && leaf.point <= leaf.isolated
        && leaf.isolated <= leaf.max_load
        && leaf.max_load <= MOST_COST
        && leaf.level == level
        && level <= MOST_LEVEL
        && leaf.after > at as u64
        && leaf.after <= to as u64
}

fn ranged(head: &Head, records: usize) -> bool {
    (1..=MOST_TIME).contains(&head.deadline)
        && head.switching <= MOST_SWITCHING
        && match head.edition {
            FIRST => head.resuming == 0,
            SECOND => head.resuming <= MOST_RESUME,
            _ => false,
        }
        && head.leaves <= records.min(LEAVES)
        && (1..=FUNCTIONS).contains(&head.functions)
        && head.bounds[0] == 0
        && head.bounds[head.functions] == head.leaves as u64
        && head.bounds[head.functions + 1..].iter().all(|&b| b == 0)
}

fn derived(row: &[Leaf], head: &Head) -> bool {
    let columns = Compared { row, same: true };
    match derive(columns, &head.bounds, head.functions) {
        Some(derived) => {
            derived.total == head.total
                && derived.max_load_total == head.max_load_total
                && derived.totals == head.totals
                && derived.max_load_totals == head.max_load_totals
        }
        None => false,
    }
}

/// The plan's records, if they and the head are its table.
pub fn table<'a>(row: &'a [Leaf], head: &Head) -> Option<&'a [Leaf]> {
    if !ranged(head, row.len()) {
        return None;
    }
    let row = &row[..head.leaves];
    let mut structure = Structure {
        row,
        own: 0,
        heights: [0; FUNCTIONS],
        loud: [false; FUNCTIONS],
        named: [false; FUNCTIONS],
    };
    let right = structure.functions(&head.bounds[..=head.functions]) && derived(row, head);
    right.then_some(row)
}
