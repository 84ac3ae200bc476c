//! How often kinds of short runs (02, L10) were met, so that none goes untried.

use std::collections::BTreeMap;
use std::fmt;

use super::runs::{Choice, Run};
use super::short_runs::MOST_VISITS;

const NONE: &str = "no run is short";
const EMPTY: &str = "a run visits nothing";
const LEFT_OUT: &str = "a longer run is left out";
const LONGEST: &str = "a run of 64 visits";
const BEGINS: &str = "a run begins the next";
const TWICE: &str = "the same visits by other choices";
const THEN: &str = "the then part comes first";
const ELSE: &str = "the else part comes first";
const LEAVE: &str = "leaving a loop comes first";
const ROUND: &str = "going round a loop comes first";
const NUMBERS: &str = "by text the next comes first";

const KINDS: [&str; 11] = [
    NONE, EMPTY, LEFT_OUT, LONGEST, BEGINS, TWICE, THEN, ELSE, LEAVE, ROUND, NUMBERS,
];

#[derive(Default)]
pub struct MetRuns(BTreeMap<&'static str, usize>);

/// Runs by the leaves of their visits, in order.
type ByLeaves<'a> = BTreeMap<Vec<usize>, &'a Run>;

impl MetRuns {
    fn add(&mut self, kind: &'static str, met: bool) {
        *self.0.entry(kind).or_default() += usize::from(met);
    }

    /// Counts the kinds among all runs of a plan.
    pub fn note(&mut self, all: &[Run]) {
        let short: Vec<&Run> = all.iter().filter(|run| run.len() <= MOST_VISITS).collect();
        let leaves = |run: &Run| run.iter().map(|visit| visit.leaf).collect();
        let ordered: ByLeaves = short.iter().map(|&run| (leaves(run), run)).collect();
        self.add(NONE, short.is_empty());
        self.add(EMPTY, short.iter().any(|run| run.is_empty()));
        self.add(LEFT_OUT, short.len() < all.len());
        self.add(LONGEST, short.iter().any(|run| run.len() == MOST_VISITS));
        self.add(TWICE, ordered.len() < short.len());
        for (one, next) in ordered.iter().zip(ordered.iter().skip(1)) {
            self.note_order(one, next);
        }
    }

    /// Counts why a run comes before the next one.
    fn note_order(&mut self, one: (&Vec<usize>, &&Run), next: (&Vec<usize>, &&Run)) {
        let ((leaves, run), (next_leaves, next_run)) = (one, next);
        let pairs = leaves.iter().zip(next_leaves);
        let alike = pairs.take_while(|(leaf, next)| leaf == next).count();
        self.add(BEGINS, alike == leaves.len());
        if let (Some(leaf), Some(next)) = (leaves.get(alike), next_leaves.get(alike)) {
            self.add(NUMBERS, leaf.to_string() > next.to_string());
        }
        let last = alike.checked_sub(1).expect("they begin with one visit");
        let choice = run[last].choice;
        if choice != next_run[last].choice {
            let kind = match choice.expect("where runs part, something is chosen") {
                Choice::Then => THEN,
                Choice::Else => ELSE,
                Choice::Leave => LEAVE,
                Choice::Round => ROUND,
            };
            self.add(kind, true);
        }
    }

    /// Whether each kind was met at least so often.
    pub fn met(&self, least: usize) -> bool {
        let count = |kind| self.0.get(kind).copied().unwrap_or(0);
        KINDS.into_iter().all(|kind| count(kind) >= least)
    }
}

impl fmt::Display for MetRuns {
    fn fmt(&self, into: &mut fmt::Formatter) -> fmt::Result {
        write!(into, "{:?}", self.0)
    }
}
