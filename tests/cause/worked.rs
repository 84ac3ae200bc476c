//! The logs worked out by hand.

use logs::tested::Tested;
use reference::worked_causes::{most_visits, CASES};

pub fn compare_all(tested: &mut Tested) {
    for case in CASES.iter().copied().flatten() {
        tested.worked(case.name, case.plan, case.log, case.printed);
    }
    for case in most_visits() {
        tested.worked(case.name, &case.plan, &case.log, &case.printed);
    }
}
