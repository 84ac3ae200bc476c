//! The leaves of a plan as records, and where each function begins.

use super::plan::{Form, Kind, Plan, MOST_FUNCTIONS};

/// Where the numbers of a record stand: eight that the text decides (kind, point,
/// C, M, bound or target, first leaf of the else part, first leaf after the form,
/// level in its own function), and three that are derived.
pub const KIND: usize = 0;
pub const POINT: usize = 1;
pub const ISOLATED: usize = 2;
pub const MAX_LOAD: usize = 3;
pub const DETAIL: usize = 4;
pub const OTHER: usize = 5;
pub const AFTER: usize = 6;
pub const LEVEL: usize = 7;
pub const TURN: usize = 8;
pub const TAIL: usize = 9;
pub const MAX_LOAD_TURN: usize = 10;
pub const RECORD: usize = 11;

pub type Record = [u64; RECORD];

fn count(forms: &[Form]) -> usize {
    forms
        .iter()
        .map(|form| match &form.kind {
            Kind::Leaf | Kind::Call(_) => 1,
            Kind::Loop(_, body) => 1 + count(body),
            Kind::If(then_part, else_part) => 1 + count(then_part) + count(else_part),
        })
        .sum()
}

/// The record of a form at this level of its function, what is derived left at 0.
fn record(form: &Form, level: u64) -> Record {
    let inner = form.leaf + 1;
    let (kind, detail, other, after) = match &form.kind {
        Kind::Leaf => (0, 0, 0, inner),
        Kind::Call(target) => (1, *target as u64, 0, inner),
        Kind::Loop(bound, body) => (2, *bound, 0, inner + count(body)),
        Kind::If(then_part, else_part) => {
            let other = inner + count(then_part);
            (3, 0, other, other + count(else_part))
        }
    };
    let mut record = [0; RECORD];
    record[KIND] = kind;
    record[POINT] = u64::from(form.point);
    record[ISOLATED] = form.isolated;
    record[MAX_LOAD] = form.loaded;
    record[DETAIL] = detail;
    record[OTHER] = other as u64;
    record[AFTER] = after as u64;
    record[LEVEL] = level;
    record
}

fn records(forms: &[Form], level: u64, into: &mut Vec<Record>) {
    for form in forms {
        into.push(record(form, level));
        match &form.kind {
            Kind::Leaf | Kind::Call(_) => {}
            Kind::Loop(_, body) => records(body, level + 1, into),
            Kind::If(then_part, else_part) => {
                records(then_part, level, into);
                records(else_part, level, into);
            }
        }
    }
}

/// What the text decides of a plan's row.
pub fn row(plan: &Plan) -> Vec<Record> {
    let mut row = Vec::new();
    for forms in &plan.functions {
        records(forms, 1, &mut row);
    }
    row
}

/// The first leaf of each function and the leaf after the last one, 0 behind.
pub fn bounds(plan: &Plan) -> Vec<u64> {
    let mut bounds = vec![0];
    for forms in &plan.functions {
        bounds.push(bounds[bounds.len() - 1] + count(forms) as u64);
    }
    bounds.resize(MOST_FUNCTIONS + 1, 0);
    bounds
}

/// The forms that the records from one leaf up to another stand for; None where
/// the numbers do not nest.
fn forms(row: &[Record], from: usize, to: usize) -> Option<Vec<Form>> {
    let mut all = Vec::new();
    let mut leaf = from;
    while leaf < to {
        let record = row.get(leaf)?;
        let inner = leaf + 1;
        let within = |number: u64, first: usize, last: usize| {
            let leaf = usize::try_from(number).ok()?;
            (first <= leaf && leaf <= last).then_some(leaf)
        };
        let after = within(record[AFTER], inner, to)?;
        let kind = match record[KIND] {
            0 => Kind::Leaf,
            1 => Kind::Call(usize::try_from(record[DETAIL]).ok()?),
            2 => Kind::Loop(record[DETAIL], forms(row, inner, after)?),
            3 => {
                let middle = within(record[OTHER], inner, after)?;
                Kind::If(forms(row, inner, middle)?, forms(row, middle, after)?)
            }
            _ => return None,
        };
        all.push(Form {
            leaf,
            point: record[POINT] == 1,
            isolated: record[ISOLATED],
            loaded: record[MAX_LOAD],
            kind,
        });
        leaf = after;
    }
    Some(all)
}

/// The functions that a row stands for, so many between these bounds; None where
/// the numbers are those of no plan. Numbers that the forms do not need are not
/// looked at.
pub fn functions(row: &[Record], bounds: &[u64], count: usize) -> Option<Vec<Vec<Form>>> {
    let bound = |at: usize| usize::try_from(*bounds.get(at)?).ok();
    (0..count)
        .map(|function| forms(row, bound(function)?, bound(function + 1)?))
        .collect()
}
