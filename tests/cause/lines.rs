//! Which lines are reports: right ones, and those that are off by a byte, a field or a
//! number, each behind a report that is explained where they are none.

use logs::forms::{near_right_ones, OTHERS, RIGHT};
use logs::lengths::BEFORE;
use logs::tested::Tested;
use reference::cause::last_asked;
use reference::composed::Composed;
use reference::plan::{self, Plan, MOST_LEAVES};
use reference::worked::PLAN_A;

/// A log that ends in these lines, behind a report.
fn ending_in(tested: &mut Tested, group: &str, lines: &[u8]) {
    let log = [BEFORE.as_bytes(), lines].concat();
    tested.log(group, PLAN_A.as_bytes(), &log);
}

/// Each line alone, with and without its line feed.
fn others(tested: &mut Tested) {
    for other in OTHERS {
        let line = format!("{other}\n");
        ending_in(tested, &format!("a line {other:?}"), line.as_bytes());
        let group = format!("a last line {other:?}");
        ending_in(tested, &group, other.as_bytes());
    }
}

/// Those that are no reports together, since one that is taken for a report is the last;
/// each report in a log of its own.
fn near(tested: &mut Tested, plan: &Plan) {
    let composed = Composed::new(plan);
    for (group, lines) in near_right_ones() {
        let is_report = |line: &Vec<u8>| last_asked(&composed, line).is_some();
        let (reports, others): (Vec<_>, Vec<_>) = lines.into_iter().partition(is_report);
        ending_in(tested, &group, &others.concat());
        for report in reports {
            ending_in(tested, &group, &report);
        }
    }
}

/// Right lines at the end of a log but for their line feed.
fn broken_off(tested: &mut Tested) {
    for line in RIGHT {
        let line = line.trim_end();
        ending_in(tested, &format!("broken off {line:?}"), line.as_bytes());
    }
}

/// A log whose lines all end in some other way, behind one report.
fn line_ends(tested: &mut Tested) {
    for end in ["\r\n", "\r", "\n\r", "\0", " \n", "\n\n", "\u{b}"] {
        let lines = "point 1 10\npoint 1 20\n".replace('\n', end);
        let group = format!("lines that end in {end:?}");
        ending_in(tested, &group, lines.as_bytes());
    }
}

pub fn compare_all(tested: &mut Tested) {
    let plan = plan::read(PLAN_A.as_bytes(), MOST_LEAVES).expect("an accepted plan");
    others(tested);
    near(tested, &plan);
    broken_off(tested);
    line_ends(tested);
}
