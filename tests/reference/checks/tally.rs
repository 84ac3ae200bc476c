//! Counting checks, and calls written as lines.

use std::fmt::Debug;

use reference::calls::Controller;
use reference::composed::Composed;
use reference::listed::Listed;
use reference::numbers::Numbers;
use reference::plan::{self, Plan};
use reference::worked::call_of;

/// Failures past this many are counted but not shown.
const SHOWN: usize = 20;

pub struct Tally {
    pub passed: usize,
    pub failed: usize,
}

impl Tally {
    pub fn new() -> Tally {
        Tally {
            passed: 0,
            failed: 0,
        }
    }

    pub fn equal<T: PartialEq + Debug>(&mut self, found: T, wanted: T, what: impl Fn() -> String) {
        if found == wanted {
            self.passed += 1;
            return;
        }
        self.failed += 1;
        if self.failed <= SHOWN {
            println!(
                "failed: {}\n  found  {found:?}\n  wanted {wanted:?}",
                what()
            );
        }
    }

    pub fn holds(&mut self, truth: bool, what: impl Fn() -> String) {
        self.equal(truth, true, what);
    }

    /// Calls on a plan by both ways, each line `release`, `report N R` or
    /// `end R` followed by ` -> ` and the answer wanted.
    pub fn calls(&mut self, name: &str, text: &str, lines: &[&str]) {
        let plan = accepted(text);
        let listed = Listed::new(&plan, 10_000).expect("a plan of few runs");
        self.calls_one_way(name, "listed", &listed, lines);
        self.calls_one_way(name, "composed", &Composed::new(&plan), lines);
    }

    fn calls_one_way<N: Numbers>(&mut self, name: &str, way: &str, numbers: &N, lines: &[&str]) {
        let mut controller = Controller::new(numbers);
        for line in lines {
            let (call, wanted) = line.split_once(" -> ").expect("a call and its answer");
            let answer = controller.call(call_of(call));
            self.equal(answer.line().as_str(), wanted, || {
                format!("{name}, {way}: {call}")
            });
        }
    }
}

/// The plan of a text that must be accepted.
pub fn accepted(text: &str) -> Plan {
    plan::read(text.as_bytes(), 512).unwrap_or_else(|refusal| panic!("{refusal:?}: {text}"))
}
