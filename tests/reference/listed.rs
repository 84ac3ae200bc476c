//! Every number read off the list of all runs. For small plans.

use std::collections::BTreeSet;

use super::numbers::{Numbers, Times};
use super::plan::{Form, Kind, Plan, MOST_LEVEL};
use super::runs::{self, Run, Visit};

/// A run with the positions of its points, and for each position the isolated
/// sum from there to the end.
struct Known {
    visits: Vec<Visit>,
    points: Vec<usize>,
    isolated_from: Vec<u64>,
}

impl Known {
    /// The visits from this one of its reports, counted from 0, up to the next point or the
    /// end.
    fn up_to_next(&self, report: usize) -> &[Visit] {
        let next = self.points.get(report + 1);
        let stop = next.copied().unwrap_or(self.visits.len());
        &self.visits[self.points[report]..stop]
    }
}

pub struct Listed<'a> {
    plan: &'a Plan,
    leaves: Vec<(usize, &'a Form)>,
    runs: Vec<Known>,
    /// The runs of each function alone.
    alone: Vec<Vec<Run>>,
}

impl<'a> Listed<'a> {
    /// None if the plan, or a function of it, has more than `limit` runs.
    pub fn new(plan: &'a Plan, limit: usize) -> Option<Listed<'a>> {
        let leaves = plan.leaves();
        let mut alone = Vec::new();
        for function in 0..plan.functions.len() {
            alone.push(runs::of_function(plan, function, limit)?);
        }
        let all = runs::of_plan(plan, limit)?;
        let known = |visits: Run| {
            let is_point = |&place: &usize| leaves[visits[place].leaf].1.point;
            let points = (0..visits.len()).filter(is_point).collect();
            let isolated_from = (0..=visits.len())
                .map(|place| {
                    visits[place..]
                        .iter()
                        .map(|v| leaves[v.leaf].1.isolated)
                        .sum()
                })
                .collect();
            Known {
                visits,
                points,
                isolated_from,
            }
        };
        let runs = all.into_iter().map(known).collect();
        Some(Listed {
            plan,
            leaves,
            runs,
            alone,
        })
    }

    pub fn run_count(&self) -> usize {
        self.runs.len()
    }

    fn isolated(&self, visits: &[Visit]) -> u64 {
        visits
            .iter()
            .map(|visit| self.leaves[visit.leaf].1.isolated)
            .sum()
    }

    pub fn loaded(&self, visits: &[Visit]) -> u64 {
        visits
            .iter()
            .map(|visit| self.leaves[visit.leaf].1.loaded)
            .sum()
    }

    /// The max-load sum of a run from this one of its reports, counted from 0, up to the
    /// next or the end.
    fn loaded_from(&self, run: &Known, report: usize) -> u64 {
        self.loaded(run.up_to_next(report))
    }

    /// Of each run with this history, which is not empty, the visits from its last report
    /// up to the next point or the end.
    pub fn continuations(&self, history: &[usize]) -> Vec<&[Visit]> {
        let last = history.len() - 1;
        let runs = self.with_history(history);
        runs.map(|run| run.up_to_next(last)).collect()
    }

    /// A round lies between two visits of the condition with nothing but visits
    /// of higher levels between them.
    fn dearest_round(&self, leaf: usize, sum: impl Fn(&[Visit]) -> u64) -> u64 {
        let (function, form) = self.leaves[leaf];
        if !matches!(form.kind, Kind::Loop(..)) {
            return 0;
        }
        let mut most = None;
        for run in &self.alone[function] {
            for first in (0..run.len()).filter(|&place| run[place].leaf == leaf) {
                let body = &run[first + 1..];
                let inside = body.iter().take_while(|v| v.level > run[first].level);
                let next = first + 1 + inside.count();
                if run.get(next).is_some_and(|visit| visit.leaf == leaf) {
                    most = most.max(Some(sum(&run[first..next])));
                }
            }
        }
        most.expect("every loop has a round in some run")
    }

    /// The runs whose first reports are these.
    fn with_history<'b: 'c, 'c>(
        &'b self,
        history: &'c [usize],
    ) -> impl Iterator<Item = &'b Known> + 'c {
        self.runs.iter().filter(move |run| {
            run.points.len() >= history.len()
                && run
                    .points
                    .iter()
                    .zip(history)
                    .all(|(&place, &leaf)| run.visits[place].leaf == leaf)
        })
    }

    /// Level in the run of the last of these reports. All runs with this
    /// history must agree on it.
    fn level_of_last(&self, history: &[usize]) -> usize {
        let Some(last) = history.len().checked_sub(1) else {
            return 0;
        };
        let levels: BTreeSet<usize> = self
            .with_history(history)
            .map(|run| run.visits[run.points[last]].level)
            .collect();
        assert_eq!(
            levels.len(),
            1,
            "the level of a report is not settled by the reports"
        );
        levels.into_iter().sum()
    }
}

fn largest<I: Iterator<Item = u64>>(sums: I) -> u64 {
    sums.max().expect("there is a run with this history")
}

impl Numbers for Listed<'_> {
    /// The reports so far.
    type Place = Vec<usize>;

    fn plan(&self) -> &Plan {
        self.plan
    }

    fn total(&self) -> u64 {
        largest(self.runs.iter().map(|run| run.isolated_from[0]))
    }

    fn max_load_total(&self) -> u64 {
        largest(self.runs.iter().map(|run| self.loaded(&run.visits)))
    }

    fn release_stretch(&self) -> u64 {
        largest(self.runs.iter().map(|run| {
            let stop = run.points.first().copied().unwrap_or(run.visits.len());
            self.loaded(&run.visits[..stop])
        }))
    }

    fn function_total(&self, function: usize) -> u64 {
        largest(self.alone[function].iter().map(|run| self.isolated(run)))
    }

    fn max_load_function_total(&self, function: usize) -> u64 {
        largest(self.alone[function].iter().map(|run| self.loaded(run)))
    }

    fn level(&self, leaf: usize) -> usize {
        let visits = self.alone[self.leaves[leaf].0].iter().flatten();
        let levels: BTreeSet<usize> = visits
            .filter(|visit| visit.leaf == leaf)
            .map(|visit| visit.level)
            .collect();
        assert_eq!(levels.len(), 1, "a leaf has one level in its own function");
        levels.into_iter().sum()
    }

    fn turn(&self, leaf: usize) -> u64 {
        self.dearest_round(leaf, |round| self.isolated(round))
    }

    fn max_load_turn(&self, leaf: usize) -> u64 {
        self.dearest_round(leaf, |round| self.loaded(round))
    }

    fn tail(&self, leaf: usize) -> u64 {
        let runs = &self.alone[self.leaves[leaf].0];
        largest(runs.iter().filter_map(|run| {
            let first = run.iter().position(|visit| visit.leaf == leaf)?;
            Some(self.isolated(&run[first..]))
        }))
    }

    fn stretch(&self, leaf: usize) -> u64 {
        let mut most = None;
        for run in &self.runs {
            for (order, &place) in run.points.iter().enumerate() {
                if run.visits[place].leaf == leaf {
                    most = most.max(Some(self.loaded_from(run, order)));
                }
            }
        }
        most.expect("every point is visited in some run")
    }

    fn release(&self) -> Vec<usize> {
        Vec::new()
    }

    fn report(&self, history: &Vec<usize>, leaf: usize) -> Option<Vec<usize>> {
        let mut longer = history.clone();
        longer.push(leaf);
        let possible = self.with_history(&longer).next().is_some();
        possible.then_some(longer)
    }

    fn last_point(&self, history: &Vec<usize>) -> Option<usize> {
        history.last().copied()
    }

    fn next_points(&self, history: &Vec<usize>) -> BTreeSet<usize> {
        self.with_history(history)
            .filter_map(|run| Some(run.visits[*run.points.get(history.len())?].leaf))
            .collect()
    }

    fn can_end(&self, history: &Vec<usize>) -> bool {
        self.with_history(history)
            .any(|run| run.points.len() == history.len())
    }

    fn remaining(&self, history: &Vec<usize>) -> u64 {
        match history.len().checked_sub(1) {
            None => self.total(),
            Some(last) => largest(
                self.with_history(history)
                    .map(|run| run.isolated_from[run.points[last]]),
            ),
        }
    }

    fn times(&self, history: &Vec<usize>) -> Times {
        let mut times = [0; MOST_LEVEL + 1];
        times[0] = self.total();
        let top = self.level_of_last(history);
        for level in 1..=top {
            let latest = (1..=history.len())
                .rev()
                .find(|&count| self.level_of_last(&history[..count]) == level)
                .expect("each level up to that of the last point has a report");
            times[level] = self.remaining(&history[..latest].to_vec());
        }
        times
    }

    fn level_in_run(&self, history: &Vec<usize>) -> usize {
        self.level_of_last(history)
    }

    fn is_final(&self, history: &Vec<usize>) -> bool {
        let mut runs = self.with_history(history);
        !runs.any(|run| run.points.len() > history.len())
    }

    fn stretch_at(&self, history: &Vec<usize>) -> u64 {
        match history.len().checked_sub(1) {
            None => self.release_stretch(),
            Some(last) => largest(
                self.with_history(history)
                    .map(|run| self.loaded_from(run, last)),
            ),
        }
    }
}
