//! How often the ways of reports were met (02, L9), by what tells them from others, and by
//! the decisions that they explain, so that none goes untried.

use std::collections::BTreeMap;
use std::fmt;

use super::calls::{Answer, Word, LEAST_MARGIN};
use super::cause::{listed_leaves, Causes};
use super::cause_by_forms::{Rule, Stop, RULE};
use super::composed::{Composed, Place};
use super::edition::Edition;
use super::numbers::Numbers;
use super::plan::Kind;

/// Rules by which other leaves are listed only where choices tie, or where what follows an
/// if settles which of its parts is taken.
const OTHER_RULES: [(&str, Rule); 3] = [
    (
        "parts of an if tie",
        Rule {
            then: |by_then, by_else| by_then > by_else,
            ..RULE
        },
    ),
    (
        "a round and leaving tie",
        Rule {
            leave: |leaving, turning| leaving > turning,
            ..RULE
        },
    ),
    (
        "what follows an if settles its part",
        Rule {
            behind: false,
            ..RULE
        },
    ),
];

const LEFT_OUT: &str = "a visited leaf is left out";
const OFTEN: &str = "a leaf is visited more than once";
const ELSEWHERE: &str = "a leaf of another function";
const LEAF: &str = "from a leaf";
const CALL: &str = "from a call";
const IF: &str = "from an if";
const AGAIN: &str = "from a loop gone round again";
const AT_BOUND: &str = "from a loop left at its bound";
const BY_CHOICE: &str = "from a loop left though it could go round";
const TO_POINT: &str = "to a point in a row";
const TO_CONDITION: &str = "to the condition of an open loop";
const TO_END: &str = "to the end";
const SILENT_ROUND: &str = "a silent loop is gone round";
const SILENT_CALL: &str = "a silent call is passed";
const REPORTS: &str = "reports";
const AT_FLOOR: &str = "a margin at its floor";

/// The kinds of ways beside those by other rules.
const KINDS: [&str; 14] = [
    LEFT_OUT,
    OFTEN,
    ELSEWHERE,
    LEAF,
    CALL,
    IF,
    AGAIN,
    AT_BOUND,
    BY_CHOICE,
    TO_POINT,
    TO_CONDITION,
    TO_END,
    SILENT_ROUND,
    SILENT_CALL,
];

#[derive(Default)]
pub struct Ways(BTreeMap<String, usize>);

fn decision(word: Word, is_final: bool) -> String {
    let last = if is_final { ", final" } else { "" };
    format!("{}{last}", word.text())
}

/// Whether other leaves than these would be listed by another rule.
fn differs(composed: &Composed, place: &Place, rule: Rule, list: &[(usize, u128)]) -> bool {
    listed_leaves(composed, &composed.visits_by(place, rule)) != list
}

/// Whether some rule but the document's would list other leaves for a report.
pub fn is_told_apart(composed: &Composed, place: &Place) -> bool {
    let list = listed_leaves(composed, &composed.visits(place));
    let mut rules = OTHER_RULES.iter();
    rules.any(|&(_, rule)| differs(composed, place, rule, &list))
}

impl Ways {
    fn add(&mut self, kind: &str, met: bool) {
        *self.0.entry(kind.to_string()).or_default() += usize::from(met);
    }

    /// Counts the way of a report.
    pub fn note(&mut self, composed: &Composed, place: &Place) {
        let visits = composed.visits(place);
        let list = listed_leaves(composed, &visits);
        for (kind, rule) in OTHER_RULES {
            self.add(kind, differs(composed, place, rule, &list));
        }
        let visited = visits.iter().filter(|&&count| count > 0);
        self.add(LEFT_OUT, list.len() < visited.count());
        self.add(OFTEN, list.iter().any(|&(_, count)| count > 1));
        let leaves = composed.plan().leaves();
        let last = composed.last_point(place).expect("a report");
        let is_elsewhere = |&(leaf, _): &(usize, u128)| leaves[leaf].0 != leaves[last].0;
        self.add(ELSEWHERE, list.iter().any(is_elsewhere));
        self.note_marks(composed, place);
        self.add(REPORTS, true);
    }

    /// Counts the form that was reported, where the way ends and what is silent on it.
    fn note_marks(&mut self, composed: &Composed, place: &Place) {
        let marks = composed.marks(place);
        let &(last, visits) = place.last().expect("a report");
        let from = match composed.plan().leaves()[last].1.kind {
            Kind::Leaf => LEAF,
            Kind::Call(_) => CALL,
            Kind::If(..) => IF,
            Kind::Loop(..) if marks.again => AGAIN,
            Kind::Loop(bound, _) if visits > bound => AT_BOUND,
            Kind::Loop(..) => BY_CHOICE,
        };
        self.add(from, true);
        let to = match marks.stop {
            Stop::Point => TO_POINT,
            Stop::Condition => TO_CONDITION,
            Stop::End => TO_END,
        };
        self.add(to, true);
        self.add(SILENT_ROUND, marks.silent_round);
        self.add(SILENT_CALL, marks.silent_call);
    }

    /// Counts the answer of a report that led to this place, if it was accepted.
    pub fn note_decision<N: Numbers>(&mut self, numbers: &N, place: &N::Place, answer: Answer) {
        if let Answer::Decision { word, margin, .. } = answer {
            self.add(&decision(word, numbers.is_final(place)), true);
            self.add(AT_FLOOR, margin == LEAST_MARGIN);
        }
    }

    fn has(&self, kind: &str, least: usize) -> bool {
        self.0.get(kind).is_some_and(|&count| count >= least)
    }

    /// Whether each kind of way was met at least so often.
    pub fn met(&self, least: usize) -> bool {
        let rules = OTHER_RULES.iter().map(|&(kind, _)| kind);
        let mut kinds = rules.chain(KINDS);
        kinds.all(|kind| self.has(kind, least))
    }

    /// Whether each decision of this edition was, and a margin at its floor.
    pub fn decided(&self, edition: Edition, least: usize) -> bool {
        let words = [Word::Go, Word::Suspend, Word::Stay, Word::Resume];
        let mut words = words[..edition.words()].iter();
        let each = words.all(|&word| {
            let mut kinds = [false, true]
                .map(|is_final| decision(word, is_final))
                .into_iter();
            kinds.all(|kind| self.has(&kind, least))
        });
        each && self.has(AT_FLOOR, least)
    }
}

impl fmt::Display for Ways {
    fn fmt(&self, into: &mut fmt::Formatter) -> fmt::Result {
        write!(into, "{:?}", self.0)
    }
}
