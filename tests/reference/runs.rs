//! Every run of a plan, listed one by one.

use super::plan::{Form, Kind, Plan};

/// What a run chooses at a visit: at an if its part, at a loop's condition whether the
/// loop is left or gone round once more.
#[derive(Clone, Copy, Debug, PartialEq, Eq)]
pub enum Choice {
    Then,
    Else,
    Leave,
    Round,
}

/// One visit of a leaf, with its level in the run and what is chosen there.
#[derive(Clone, Copy, Debug, PartialEq, Eq)]
pub struct Visit {
    pub leaf: usize,
    pub level: usize,
    pub choice: Option<Choice>,
}

pub type Run = Vec<Visit>;

/// The most visits of a run that is listed.
const LONGEST: usize = 10_000;

/// Each run of the first list followed by each of the second.
fn joined(first: &[Run], second: &[Run], limit: usize) -> Option<Vec<Run>> {
    let longest = |runs: &[Run]| runs.iter().map(Vec::len).max().unwrap_or(0);
    if first.len() * second.len() > limit || longest(first) + longest(second) > LONGEST {
        return None;
    }
    let mut all = Vec::with_capacity(first.len() * second.len());
    for start in first {
        for rest in second {
            all.push([start.as_slice(), rest.as_slice()].concat());
        }
    }
    Some(all)
}

/// Forms in a row: each runs after the one before.
fn in_row(plan: &Plan, forms: &[Form], level: usize, limit: usize) -> Option<Vec<Run>> {
    let mut all = vec![Vec::new()];
    for form in forms {
        all = joined(&all, &of_form(plan, form, level, limit)?, limit)?;
    }
    Some(all)
}

fn of_form(plan: &Plan, form: &Form, level: usize, limit: usize) -> Option<Vec<Run>> {
    let visit = |choice| {
        vec![vec![Visit {
            leaf: form.leaf,
            level,
            choice,
        }]]
    };
    let inside = |forms, level| in_row(plan, forms, level, limit);
    match &form.kind {
        Kind::Leaf => Some(visit(None)),
        Kind::Call(target) => {
            let called = inside(&plan.functions[*target], level + 1)?;
            joined(&visit(None), &called, limit)
        }
        Kind::If(then_part, else_part) => {
            let by_then = inside(then_part, level)?;
            let by_else = inside(else_part, level)?;
            let mut all = joined(&visit(Some(Choice::Then)), &by_then, limit)?;
            all.extend(joined(&visit(Some(Choice::Else)), &by_else, limit)?);
            (all.len() <= limit).then_some(all)
        }
        Kind::Loop(bound, body) => {
            let body = inside(body, level + 1)?;
            let round = joined(&visit(Some(Choice::Round)), &body, limit)?;
            let leaving = visit(Some(Choice::Leave));
            let mut rounds = vec![Vec::new()];
            let mut all = leaving.clone();
            for _ in 0..*bound {
                rounds = joined(&rounds, &round, limit)?;
                all.extend(joined(&rounds, &leaving, limit)?);
                if all.len() > limit {
                    return None;
                }
            }
            Some(all)
        }
    }
}

/// The runs of one function alone, its own forms at level 1; None if the list
/// would hold more than `limit`, or one that is too long.
pub fn of_function(plan: &Plan, function: usize, limit: usize) -> Option<Vec<Run>> {
    in_row(plan, &plan.functions[function], 1, limit)
}

/// The runs of the plan.
pub fn of_plan(plan: &Plan, limit: usize) -> Option<Vec<Run>> {
    of_function(plan, plan.main(), limit)
}
