//! The numbers of a plan, as the listing and the calls need them. They are
//! found twice: read off the list of all runs, and composed form by form.

use std::collections::BTreeSet;

use super::composed::Composed;
use super::plan::{self, Plan, MOST_LEAVES, MOST_LEVEL};

/// Remaining times of the levels 0 to 32.
pub type Times = [u64; MOST_LEVEL + 1];

pub trait Numbers {
    /// Where a run stands at its last report, or at the release.
    type Place: Clone;

    fn plan(&self) -> &Plan;
    fn total(&self) -> u64;
    fn max_load_total(&self) -> u64;
    fn release_stretch(&self) -> u64;
    /// Of a function alone: largest isolated sum over its runs, and largest max-load sum.
    fn function_total(&self, function: usize) -> u64;
    fn max_load_function_total(&self, function: usize) -> u64;

    /// Of a leaf: its level in its own function.
    fn level(&self, leaf: usize) -> usize;
    /// Of a loop: largest isolated sum of a round, its condition and one pass of
    /// its body. 0 of any other leaf.
    fn turn(&self, leaf: usize) -> u64;
    /// The same at max-load costs.
    fn max_load_turn(&self, leaf: usize) -> u64;
    /// Of a leaf: largest isolated sum from a first visit to the end of its function.
    fn tail(&self, leaf: usize) -> u64;
    /// Of a point: largest max-load sum from a visit of it up to the next point or the
    /// end, over all its visits in all runs. The listing and the sheet show it.
    fn stretch(&self, leaf: usize) -> u64;

    fn release(&self) -> Self::Place;
    /// The place after one more report, None if no run has it next.
    fn report(&self, place: &Self::Place, leaf: usize) -> Option<Self::Place>;
    fn last_point(&self, place: &Self::Place) -> Option<usize>;
    fn next_points(&self, place: &Self::Place) -> BTreeSet<usize>;
    fn can_end(&self, place: &Self::Place) -> bool;
    fn remaining(&self, place: &Self::Place) -> u64;
    fn times(&self, place: &Self::Place) -> Times;
    /// Level of the last point in the run; 0 at the release.
    fn level_in_run(&self, place: &Self::Place) -> usize;
    /// Whether no run with this history of reports meets a further point (02, L3); at
    /// the release, whether no run of the plan meets any.
    fn is_final(&self, place: &Self::Place) -> bool;
    /// The stretch of this visit (02, L6): largest max-load sum from it up to the next
    /// point or the end, over all runs with this history of reports. At the release that
    /// of the release.
    fn stretch_at(&self, place: &Self::Place) -> u64;

    /// The stretch that decisions went by before L6: that of the last point, over all its
    /// visits, or of the release.
    fn stretch_of_last(&self, place: &Self::Place) -> u64 {
        match self.last_point(place) {
            None => self.release_stretch(),
            Some(leaf) => self.stretch(leaf),
        }
    }

    /// What the condition sets beside the elapsed time with this stretch: where no run
    /// meets a further point the stretch alone (02, L3), elsewhere remaining and T too.
    fn needed_with(&self, place: &Self::Place, stretch: u64) -> u64 {
        match self.is_final(place) {
            true => stretch,
            false => self.remaining(place) + stretch + self.plan().switch,
        }
    }

    fn needed(&self, place: &Self::Place) -> u64 {
        self.needed_with(place, self.stretch_at(place))
    }

    /// The same as it was before L6.
    fn needed_before(&self, place: &Self::Place) -> u64 {
        self.needed_with(place, self.stretch_of_last(place))
    }
}

/// The numbers that a listing shows: of the task the total, the max-load total, D, T and,
/// in an edition 2 plan, U (02, L7), and of each point, in leaf order, its number, its
/// level, its tail and its stretch.
pub struct Figures {
    pub task: Vec<u64>,
    pub points: Vec<[u64; 4]>,
}

pub fn figures<N: Numbers>(numbers: &N) -> Figures {
    let plan = numbers.plan();
    let point = |leaf: usize| {
        let (level, tail) = (numbers.level(leaf), numbers.tail(leaf));
        [leaf as u64, level as u64, tail, numbers.stretch(leaf)]
    };
    let leaves = plan.leaves().into_iter();
    let points = leaves.filter(|(_, form)| form.point);
    let (total, max_load) = (numbers.total(), numbers.max_load_total());
    let task = [total, max_load, plan.deadline, plan.switch];
    Figures {
        task: task.into_iter().chain(plan.resume).collect(),
        points: points.map(|(_, form)| point(form.leaf)).collect(),
    }
}

impl Figures {
    /// What the table program prints for an accepted plan with these.
    pub fn listing(&self) -> String {
        let field = |number: &u64| format!(" {number}");
        let line = |word: &str, numbers: &[u64]| {
            let fields: String = numbers.iter().map(field).collect();
            format!("{word}{fields}\n")
        };
        let points = self.points.iter().map(|point| line("point", point));
        line("task", &self.task) + &points.collect::<String>()
    }
}

/// What the table program prints for an accepted plan with these numbers.
pub fn listing<N: Numbers>(numbers: &N) -> String {
    figures(numbers).listing()
}

/// What a program prints for a text: for an accepted plan what it makes of the numbers,
/// for a refused one the line that every program prints.
pub fn answer(text: &[u8], accepted: fn(&Figures) -> String) -> String {
    match plan::read(text, MOST_LEAVES) {
        Ok(plan) => accepted(&figures(&Composed::new(&plan))),
        Err((number, line)) => format!("refused {number} {line}\n"),
    }
}

/// What the table program prints for a text.
pub fn printed(text: &[u8]) -> String {
    answer(text, Figures::listing)
}
