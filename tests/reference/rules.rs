//! Refusals 8, 9 and 10: what is judged of a plan once all lines are read.

use super::composed::{function_totals, Cost};
use super::plan::{Form, Kind, Plan};

pub const MOST_TOTAL: u128 = 1 << 40;

/// Whether a point is met in these forms or in what they call. `called` holds
/// the answer for each function of a lower number.
pub fn meets_point(called: &[bool], forms: &[Form]) -> bool {
    forms
        .iter()
        .any(|form| form.point || point_inside(called, form))
}

/// Whether a point is met inside the form, its own line left out.
pub fn point_inside(called: &[bool], form: &Form) -> bool {
    match &form.kind {
        Kind::Leaf => false,
        Kind::Call(target) => called[*target],
        Kind::Loop(_, body) => meets_point(called, body),
        Kind::If(then_part, else_part) => {
            meets_point(called, then_part) || meets_point(called, else_part)
        }
    }
}

/// For each function, whether a point is met in it or in what it calls.
pub fn functions_with_points(plan: &Plan) -> Vec<bool> {
    let mut answers = Vec::new();
    for forms in &plan.functions {
        answers.push(meets_point(&answers, forms));
    }
    answers
}

/// Rule 8 speaks of loops and calls only: a silent if may hold points.
fn unseen(plan: &Plan) -> bool {
    let called = functions_with_points(plan);
    plan.leaves().iter().any(|(_, form)| {
        let looked_at = matches!(form.kind, Kind::Loop(..) | Kind::Call(_));
        looked_at && !form.point && point_inside(&called, form)
    })
}

/// Rule 9: the functions but the last that no call names.
pub fn uncalled(plan: &Plan) -> Vec<usize> {
    let mut named = vec![false; plan.functions.len()];
    for (_, form) in plan.leaves() {
        if let Kind::Call(target) = form.kind {
            named[target] = true;
        }
    }
    (0..plan.main())
        .filter(|&function| !named[function])
        .collect()
}

fn long(plan: &Plan) -> bool {
    [Cost::Isolated, Cost::Loaded]
        .iter()
        .any(|&cost| function_totals(plan, cost)[plan.main()] > MOST_TOTAL)
}

/// The first of 8, 9 and 10 that the plan breaks.
pub fn judge(plan: &Plan) -> Result<(), u32> {
    if unseen(plan) {
        return Err(8);
    }
    if !uncalled(plan).is_empty() {
        return Err(9);
    }
    if long(plan) {
        return Err(10);
    }
    Ok(())
}
