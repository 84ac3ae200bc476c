//! The way from a report (02, L9), picked from the list of all runs by the document's words
//! alone.

use super::cause::Causes;
use super::listed::Listed;
use super::numbers::Numbers;
use super::runs::{Choice, Visit};

/// A plan and those of its continuations from a report that chose alike so far, up to this
/// visit.
struct Alike<'a, 'b> {
    listed: &'a Listed<'a>,
    continuations: Vec<&'b [Visit]>,
    at: usize,
}

impl Alike<'_, '_> {
    /// The largest sum of M by this choice; None where no run makes it.
    fn sum_by(&self, choice: Choice) -> Option<u64> {
        let chosen = |continuation: &&&[Visit]| continuation[self.at].choice == Some(choice);
        let continuations = self.continuations.iter().filter(chosen);
        let sums = continuations.map(|continuation| self.listed.loaded(continuation));
        sums.max()
    }

    /// The first of two choices unless the second gives a larger sum.
    fn first_on_ties(&self, first: Choice, second: Choice) -> Choice {
        match self.sum_by(second) > self.sum_by(first) {
            true => second,
            false => first,
        }
    }

    /// What is chosen at this visit; None where there is no choice.
    fn choice(&self) -> Option<Choice> {
        Some(match self.continuations[0][self.at].choice? {
            Choice::Then | Choice::Else => self.first_on_ties(Choice::Then, Choice::Else),
            Choice::Leave | Choice::Round => self.first_on_ties(Choice::Leave, Choice::Round),
        })
    }

    /// The leaf that all of them visit next; None where all are at their end.
    fn leaf(&self) -> Option<usize> {
        let next = |of: &[Visit]| of.get(self.at).map(|visit| visit.leaf);
        let leaf = next(self.continuations[0]);
        let mut all = self.continuations.iter();
        assert!(
            all.all(|of| next(of) == leaf),
            "those that chose alike visit the same leaf next"
        );
        leaf
    }
}

/// The continuation that the document picks: visit by visit those are left that choose as
/// it says.
fn picked<'b>(listed: &Listed, continuations: Vec<&'b [Visit]>) -> &'b [Visit] {
    let mut alike = Alike {
        listed,
        continuations,
        at: 0,
    };
    while alike.leaf().is_some() {
        let (choice, at) = (alike.choice(), alike.at);
        alike.continuations.retain(|of| of[at].choice == choice);
        alike.at += 1;
    }
    alike.continuations[0]
}

/// How often each leaf of the plan is visited.
pub fn counted(listed: &Listed, visits: &[Visit]) -> Vec<u128> {
    let mut counts = vec![0; listed.plan().leaves().len()];
    for visit in visits {
        counts[visit.leaf] += 1;
    }
    counts
}

impl Causes for Listed<'_> {
    fn visits(&self, history: &Vec<usize>) -> Vec<u128> {
        counted(self, picked(self, self.continuations(history)))
    }
}
