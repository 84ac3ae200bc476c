//! The logs worked out by hand.

use logs::tested::Tested;
use reference::worked_logs::CASES;

pub fn compare_all(tested: &mut Tested) {
    for case in CASES.iter().copied().flatten() {
        tested.worked(case.name, case.plan, case.log, case.printed);
    }
}
