//! The derived numbers of a plan's row in linear time: sums at both costs first, forms within forms, then tails from the last form to the first.

use super::MOST_TIME;
use crate::memory::{Leaf, CALL, FUNCTIONS, LEAF, LEAVES, LOOP};

/// Sums are held here, so that a product with the bound of a loop fits.
const HELD: u64 = 1 << 41;

/// The row with its derived columns: they are written, or compared with what stands there.
pub trait Columns {
    fn row(&self) -> &[Leaf];
    fn turns(&mut self, leaf: usize, turn: u64, max_load_turn: u64);
    fn tail(&mut self, leaf: usize, tail: u64);
    /// Whether no difference was found.
    fn same(&self) -> bool;
}

pub struct Written<'a>(pub &'a mut [Leaf]);

impl Columns for Written<'_> {
    fn row(&self) -> &[Leaf] {
        self.0
    }

    fn turns(&mut self, leaf: usize, turn: u64, max_load_turn: u64) {
        self.0[leaf].turn = turn;
        self.0[leaf].max_load_turn = max_load_turn;
    }

    fn tail(&mut self, leaf: usize, tail: u64) {
        self.0[leaf].tail = tail;
    }

    fn same(&self) -> bool {
        true
    }
}

pub struct Compared<'a> {
    pub row: &'a [Leaf],
    pub same: bool,
}

impl Columns for Compared<'_> {
    fn row(&self) -> &[Leaf] {
        self.row
    }

    fn turns(&mut self, leaf: usize, turn: u64, max_load_turn: u64) {
        let leaf = &self.row[leaf];
        self.same &= leaf.turn == turn && leaf.max_load_turn == max_load_turn;
    }

    fn tail(&mut self, leaf: usize, tail: u64) {
        self.same &= self.row[leaf].tail == tail;
    }

    fn same(&self) -> bool {
        self.same
    }
}

pub struct Derived {
    pub total: u64,
    pub max_load_total: u64,
    pub totals: [u64; FUNCTIONS],
    pub max_load_totals: [u64; FUNCTIONS],
}

#[derive(Clone, Copy, Default)]
struct Sums {
    isolated: u64,
    max_load: u64,
}

struct Deriving<'a, C> {
    columns: C,
    bounds: &'a [u64; FUNCTIONS + 1],
    totals: [u64; FUNCTIONS],
    max_load_totals: [u64; FUNCTIONS],
    /// The forms of the sequences being walked back, each from the place of its first on.
    order: [u16; LEAVES],
}

impl<C: Columns> Deriving<'_, C> {
    fn after(&self, leaf: usize) -> usize {
        self.columns.row()[leaf].after as usize
    }

    fn sums(&mut self, from: usize, to: usize) -> Sums {
        let mut sums = Sums::default();
        let mut at = from;
        while at < to {
            let form = self.sums_of_form(at);
            sums.isolated = (sums.isolated + form.isolated).min(HELD);
            sums.max_load = (sums.max_load + form.max_load).min(HELD);
            at = self.after(at);
        }
        sums
    }

    fn sums_of_form(&mut self, at: usize) -> Sums {
        let leaf = &self.columns.row()[at];
        let (isolated, max_load, detail) = (leaf.isolated, leaf.max_load, leaf.detail);
        let (other, after) = (leaf.other as usize, leaf.after as usize);
        let (mut turn, mut max_load_turn) = (0, 0);
        let inside = match leaf.kind {
            LEAF => Sums::default(),
            CALL => Sums {
                isolated: self.totals[detail as usize],
                max_load: self.max_load_totals[detail as usize],
            },
            LOOP => {
                let body = self.sums(at + 1, after);
                turn = isolated + body.isolated;
                max_load_turn = max_load + body.max_load;
                Sums {
                    isolated: detail * turn,
                    max_load: detail * max_load_turn,
                }
            }
            _ => {
                let first = self.sums(at + 1, other);
                let second = self.sums(other, after);
                Sums {
                    isolated: first.isolated.max(second.isolated),
                    max_load: first.max_load.max(second.max_load),
                }
            }
        };
        self.columns.turns(at, turn, max_load_turn);
        Sums {
            isolated: (isolated + inside.isolated).min(HELD),
            max_load: (max_load + inside.max_load).min(HELD),
        }
    }

    /// Tails of the forms with this tail behind them; gives that of the first.
    fn back(&mut self, from: usize, to: usize, mut tail: u64) -> u64 {
        let mut count = 0;
        let mut at = from;
        while at < to {
            self.order[from + count] = at as u16;
            count += 1;
            at = self.after(at);
        }
        for place in (from..from + count).rev() {
            tail = self.back_over_form(self.order[place].into(), tail);
        }
        tail
    }

    fn back_over_form(&mut self, at: usize, behind: u64) -> u64 {
        let leaf = &self.columns.row()[at];
        let (isolated, turn, detail) = (leaf.isolated, leaf.turn, leaf.detail);
        let (other, after) = (leaf.other as usize, leaf.after as usize);
        let tail = match leaf.kind {
            LEAF => isolated + behind,
            CALL => isolated + self.totals[detail as usize] + behind,
            LOOP => {
                let tail = isolated + detail * turn + behind;
                self.back(at + 1, after, tail - turn);
                tail
            }
            _ => {
                let first = self.back(at + 1, other, behind);
                isolated + first.max(self.back(other, after, behind))
            }
        };
        self.columns.tail(at, tail);
        tail
    }

    fn span(&self, function: usize) -> (usize, usize) {
        (
            self.bounds[function] as usize,
            self.bounds[function + 1] as usize,
        )
    }

    /// None where rule 10 is broken or a difference was found.
    fn whole(&mut self, functions: usize) -> Option<Derived> {
        for function in 0..functions {
            let (from, to) = self.span(function);
            let sums = self.sums(from, to);
            self.totals[function] = sums.isolated;
            self.max_load_totals[function] = sums.max_load;
        }
        let main = functions - 1;
        let (total, max_load_total) = (self.totals[main], self.max_load_totals[main]);
        if total > MOST_TIME || max_load_total > MOST_TIME || !self.columns.same() {
            return None;
        }
        for function in 0..functions {
            let (from, to) = self.span(function);
            self.back(from, to, 0);
        }
        self.columns.same().then_some(Derived {
            total,
            max_load_total,
            totals: self.totals,
            max_load_totals: self.max_load_totals,
        })
    }
}

/// The derived numbers of a row that keeps rules 3 to 9 and 19; None where it does not keep rule 10, or its columns differ.
pub fn derive<C: Columns>(
    columns: C,
    bounds: &[u64; FUNCTIONS + 1],
    functions: usize,
) -> Option<Derived> {
    let mut deriving = Deriving {
        columns,
        bounds,
        totals: [0; FUNCTIONS],
        max_load_totals: [0; FUNCTIONS],
        order: [0; LEAVES],
    };
    deriving.whole(functions)
}
