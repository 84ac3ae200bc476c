//! The lists that were worked out by hand.

use reference::worked_runs::{made, CASES};

use super::comparison::Comparison;

pub fn compare_all(comparison: &mut Comparison) {
    for case in CASES.iter().copied().flatten() {
        comparison.writes(case.name, case.plan.as_bytes(), case.printed);
    }
    for case in made() {
        comparison.writes(case.name, case.plan.as_bytes(), &case.printed);
    }
}
