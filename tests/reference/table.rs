//! The table of a plan as numbers, and whether a table is that of an accepted
//! plan (refusal 11).

use std::ops::Range;

use super::composed::Composed;
use super::gen::Random;
use super::numbers::Numbers;
use super::plan::{self, Plan, MOST_FUNCTIONS, MOST_LEAVES};
use super::records::{self, Record, MAX_LOAD_TURN, RECORD, TAIL, TURN};

/// Where the numbers of the head stand: D, T, the edition, U (0 in edition 1), both
/// totals, how many leaves and functions there are, the bounds of the functions, their
/// isolated totals and their max-load totals.
pub const DEADLINE: usize = 0;
pub const SWITCH: usize = 1;
pub const EDITION: usize = 2;
pub const RESUMING: usize = 3;
pub const TOTAL: usize = 4;
pub const MAX_LOAD_TOTAL: usize = 5;
pub const LEAVES: usize = 6;
pub const FUNCTIONS: usize = 7;
pub const BOUNDS: usize = 8;
pub const TOTALS: usize = BOUNDS + MOST_FUNCTIONS + 1;
pub const MAX_LOAD_TOTALS: usize = TOTALS + MOST_FUNCTIONS;
pub const HEAD: usize = MAX_LOAD_TOTALS + MOST_FUNCTIONS;

pub type Head = [u64; HEAD];

/// The records of the leaves, and the head. A lent table may have more records
/// behind those of its plan.
#[derive(Clone, Debug, PartialEq, Eq)]
pub struct Table {
    pub row: Vec<Record>,
    pub head: Head,
}

/// Parts of a table: what the text decides of the row, each derived column, and the
/// head last.
pub const PARTS: usize = 5;

/// Where the numbers of a part stand in a record; the head is none of them.
pub const COLUMNS: [Range<usize>; PARTS - 1] = [
    0..TURN,
    TURN..TAIL,
    TAIL..MAX_LOAD_TURN,
    MAX_LOAD_TURN..RECORD,
];

impl Table {
    /// How many numbers it has; the row's stand before those of the head.
    pub fn count(&self) -> usize {
        self.row.len() * RECORD + HEAD
    }

    pub fn number(&mut self, at: usize) -> &mut u64 {
        let row = self.row.as_flattened_mut();
        match at.checked_sub(row.len()) {
            None => &mut row[at],
            Some(at) => &mut self.head[at],
        }
    }

    /// The name of a number, for messages.
    pub fn name(&self, at: usize) -> String {
        match at.checked_sub(self.row.len() * RECORD) {
            None => format!("record {}[{}]", at / RECORD, at % RECORD),
            Some(at) => format!("head[{at}]"),
        }
    }

    /// Where some number of a part stands; None where there is none.
    pub fn place(&self, random: &mut Random, part: usize) -> Option<usize> {
        let records = self.row.len();
        match COLUMNS.get(part) {
            None => Some(records * RECORD + random.index(HEAD)),
            Some(_) if records == 0 => None,
            Some(columns) => {
                let column = columns.start + random.index(columns.len());
                Some(random.index(records) * RECORD + column)
            }
        }
    }
}

/// The head of a plan with these totals, alone and under load, and those of its
/// functions; those of functions that it does not have are 0.
pub fn head(plan: &Plan, totals: [u64; 2], of_functions: [Vec<u64>; 2]) -> Head {
    let [isolated, loaded] = of_functions.map(|mut totals| {
        totals.resize(MOST_FUNCTIONS, 0);
        totals
    });
    let leaves = plan.leaves().len() as u64;
    let functions = plan.functions.len() as u64;
    let all = [
        &[plan.deadline, plan.switch],
        &plan.resume.map_or([1, 0], |cost| [2, cost]),
        &totals[..],
        &[leaves, functions],
        &records::bounds(plan),
        &isolated,
        &loaded,
    ];
    let all = all.concat().try_into();
    all.expect("as many numbers as a head has")
}

pub fn table<N: Numbers>(numbers: &N) -> Table {
    let plan = numbers.plan();
    let mut row = records::row(plan);
    for (leaf, record) in row.iter_mut().enumerate() {
        record[TURN] = numbers.turn(leaf);
        record[TAIL] = numbers.tail(leaf);
        record[MAX_LOAD_TURN] = numbers.max_load_turn(leaf);
    }
    let totals = [numbers.total(), numbers.max_load_total()];
    let functions = || 0..plan.functions.len();
    let isolated = functions().map(|function| numbers.function_total(function));
    let loaded = functions().map(|function| numbers.max_load_function_total(function));
    Table {
        row,
        head: head(plan, totals, [isolated.collect(), loaded.collect()]),
    }
}

/// The table of a plan whose costs are all 0: so is every derived number.
pub fn free(plan: &Plan) -> Table {
    Table {
        row: records::row(plan),
        head: head(plan, [0; 2], [Vec::new(), Vec::new()]),
    }
}

/// What a table turns out to be.
#[derive(Clone, Copy, Debug, PartialEq, Eq)]
pub enum Finding {
    Good,
    /// Its numbers do not nest as forms do.
    NoForms,
    /// The plan that it stands for is refused by this number.
    Refused(u32),
    /// That plan is accepted and has another table.
    Differs,
}

/// The plan that a lent table stands for, if its numbers nest as forms do.
pub fn plan_of(lent: &Table) -> Option<Plan> {
    let count = usize::try_from(lent.head[FUNCTIONS]).ok()?;
    let functions = records::functions(&lent.row, &lent.head[BOUNDS..TOTALS], count)?;
    Some(Plan {
        deadline: lent.head[DEADLINE],
        switch: lent.head[SWITCH],
        resume: (lent.head[EDITION] == 2).then_some(lent.head[RESUMING]),
        functions,
    })
}

/// A table is good exactly when some accepted plan has it. Only the plan that
/// its row stands for can have it: that plan is printed, read again, and its
/// table compared number by number.
pub fn finding(lent: &Table) -> Finding {
    let Some(plan) = plan_of(lent) else {
        return Finding::NoForms;
    };
    let plan = match plan::read(&plan::text(&plan), MOST_LEAVES) {
        Ok(plan) => plan,
        Err((number, _)) => return Finding::Refused(number),
    };
    let own = table(&Composed::new(&plan));
    match lent.head == own.head && lent.row.starts_with(&own.row) {
        true => Finding::Good,
        false => Finding::Differs,
    }
}
