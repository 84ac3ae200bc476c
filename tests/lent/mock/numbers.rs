//! Differences in the numbers of an accepted plan's table.

use reference::composed::{function_totals, Composed, Cost};
use reference::numbers::Numbers;
use reference::plan::{Form, Kind, Plan, MOST_FUNCTIONS};
use reference::records::{Record, AFTER, MAX_LOAD_TURN, OTHER, TAIL, TURN};
use reference::table::{self, Table, HEAD, MAX_LOAD_TOTAL, MAX_LOAD_TOTALS, TOTAL, TOTALS};
use reference::table::{EDITION, RESUMING};

use super::planted::planted;

/// Both sums along the path that is dearest alone.
fn one_path(plan: &Plan, forms: &[Form]) -> (u64, u64) {
    let mut sums = (0, 0);
    for form in forms {
        let own = (form.isolated, form.loaded);
        let (inner, rounds) = match &form.kind {
            Kind::Leaf => ((0, 0), 1),
            Kind::Call(target) => (one_path(plan, &plan.functions[*target]), 1),
            Kind::If(then_part, else_part) => {
                let (by_then, by_else) = (one_path(plan, then_part), one_path(plan, else_part));
                (
                    if by_then.0 > by_else.0 {
                        by_then
                    } else {
                        by_else
                    },
                    1,
                )
            }
            Kind::Loop(bound, body) => {
                let body = one_path(plan, body);
                ((body.0 + own.0, body.1 + own.1), *bound)
            }
        };
        sums.0 += own.0 + inner.0 * rounds;
        sums.1 += own.1 + inner.1 * rounds;
    }
    sums
}

/// The plan with this function as its last one, as if nobody called it.
pub fn alone(plan: &Plan, function: usize) -> Plan {
    Plan {
        functions: plan.functions[..=function].to_vec(),
        ..plan.clone()
    }
}

/// What is planted in one record.
fn plant_leaf(record: &mut Record, composed: &Composed, form: &Form) {
    let (plan, leaf) = (composed.plan(), form.leaf);
    if let Kind::Loop(bound, body) = &form.kind {
        if planted("tail-of-one-round") {
            record[TAIL] -= (bound - 1) * composed.turn(leaf);
        }
        if planted("turn-of-body-alone") {
            record[TURN] -= form.isolated;
        }
        if planted("max-load-turn-of-body-alone") {
            record[MAX_LOAD_TURN] -= form.loaded;
        }
        if planted("max-load-turn-of-all-rounds") {
            record[MAX_LOAD_TURN] *= bound;
        }
        if planted("max-load-turn-by-one-path") {
            record[MAX_LOAD_TURN] = form.loaded + one_path(plan, body).1;
        }
        if planted("max-load-turn-isolated") {
            record[MAX_LOAD_TURN] = record[TURN];
        }
    } else {
        if planted("turn-of-all-leaves") {
            record[TURN] = form.isolated;
        }
        if planted("max-load-turn-of-all-leaves") {
            record[MAX_LOAD_TURN] = form.loaded;
        }
    }
    if planted("stretch-in-table") && form.point {
        record[MAX_LOAD_TURN] = composed.stretch(leaf);
    }
    if planted("else-of-empty") && record[OTHER] == record[AFTER] {
        record[OTHER] = 0;
    }
}

/// Differences in the head beside the totals, and behind those of so many functions.
fn plant_beside(head: &mut [u64; HEAD], functions: usize) {
    for (name, last) in [
        ("totals-behind", MAX_LOAD_TOTALS - 1),
        ("max-load-totals-behind", HEAD - 1),
    ] {
        if planted(name) && functions < MOST_FUNCTIONS {
            head[last] = 1;
        }
    }
    if planted("edition-left-out") {
        head[EDITION] = 1;
    }
    if planted("resume-left-out") {
        head[RESUMING] = 0;
    }
    if planted("bounds-end") && functions == MOST_FUNCTIONS {
        head[TOTALS - 1] = 0;
    }
}

/// The table of a plan, and what is planted there.
pub fn table(plan: &Plan) -> Table {
    let composed = Composed::new(plan);
    let Table { mut row, mut head } = table::table(&composed);
    for (_, form) in plan.leaves() {
        plant_leaf(&mut row[form.leaf], &composed, form);
    }
    if planted("one-path-for-both-costs") {
        let sums = one_path(plan, &plan.functions[plan.main()]);
        (head[TOTAL], head[MAX_LOAD_TOTAL]) = sums;
    }
    for (name, first, cost) in [
        ("totals-under-load", TOTALS, Cost::Loaded),
        ("max-load-totals-isolated", MAX_LOAD_TOTALS, Cost::Isolated),
    ] {
        if planted(name) {
            let totals = function_totals(plan, cost);
            for (function, total) in totals.into_iter().enumerate() {
                head[first + function] = total as u64;
            }
        }
    }
    let functions = plan.functions.len();
    if planted("max-load-totals-by-one-path") {
        for (function, forms) in plan.functions.iter().enumerate() {
            head[MAX_LOAD_TOTALS + function] = one_path(plan, forms).1;
        }
    }
    if planted("max-load-totals-turned") {
        head[MAX_LOAD_TOTALS..MAX_LOAD_TOTALS + functions].reverse();
    }
    plant_beside(&mut head, functions);
    Table { row, head }
}
