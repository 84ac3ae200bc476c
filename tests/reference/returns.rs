//! How often decisions were met while the others are suspended (02, L7), by what they were
//! answered, so that none goes untried.

use std::fmt;

use super::calls::{Answer, Word};
use super::edition::Edition;
use super::numbers::Numbers;
use super::plan::MOST_COST;

#[derive(Default)]
pub struct Returns {
    /// Stay and resume: where a point can still come, and at final decisions.
    onward: [usize; 2],
    last: [usize; 2],
    /// Margins of 0 and -1.
    edges: [usize; 2],
    /// Those that come back with a U of 0, of 1, of more, and of the largest.
    costs: [usize; 4],
    /// Those that stay and would come back if U did not come off, or T did not.
    without_resume: usize,
    without_switch: usize,
    /// Those that stay in an edition 1 plan and would come back in one of edition 2.
    first_edition: usize,
    /// Releases of edition 2 plans, those in which the others came back twice, and the
    /// returns of the open one.
    releases: usize,
    twice: usize,
    open: usize,
}

impl Returns {
    /// Counts the answer of a decision at this place, if the others were suspended before
    /// it.
    pub fn note<N: Numbers>(&mut self, numbers: &N, place: &N::Place, answer: Answer) {
        let Answer::Decision { word, margin, .. } = answer else {
            return;
        };
        if numbers.last_point(place).is_none() {
            self.releases += usize::from(numbers.plan().resume.is_some());
            self.open = 0;
        }
        if !matches!(word, Word::Stay | Word::Resume) {
            return;
        }
        match numbers.plan().resume {
            None => self.first_edition += usize::from(margin >= 0),
            Some(cost) => self.note_second(numbers, place, cost, margin),
        }
    }

    /// The same in an edition 2 plan with this U.
    fn note_second<N: Numbers>(&mut self, numbers: &N, place: &N::Place, cost: u64, margin: i64) {
        let comes_back = margin >= 0;
        let kinds = match numbers.is_final(place) {
            true => &mut self.last,
            false => &mut self.onward,
        };
        kinds[usize::from(comes_back)] += 1;
        self.edges[0] += usize::from(margin == 0);
        self.edges[1] += usize::from(margin == -1);
        let would = |less: u64| !comes_back && margin + less as i64 >= 0;
        self.without_resume += usize::from(would(cost));
        let switch = numbers.plan().switch;
        self.without_switch += usize::from(!numbers.is_final(place) && would(switch));
        if comes_back {
            let size = match cost {
                0 => 0,
                1 => 1,
                MOST_COST => 3,
                _ => 2,
            };
            self.costs[size] += 1;
            self.open += 1;
            self.twice += usize::from(self.open == 2);
        }
    }

    /// Whether the others came back twice in at least so many releases of edition 2 plans,
    /// one of `share`.
    pub fn twice(&self, least: usize, share: usize) -> bool {
        self.twice >= least && self.twice * share >= self.releases
    }

    /// Whether stay and resume were answered at least so often, final or not.
    pub fn answered(&self, least: usize) -> bool {
        let mut words = self.onward.iter().chain(&self.last);
        words.all(|&count| count >= least)
    }

    /// Whether each of these that this edition has was met at least so often; of returns
    /// with the largest U, which few plans leave time for, one is enough.
    pub fn met(&self, edition: Edition, least: usize) -> bool {
        if edition == Edition::First {
            return self.first_edition >= least;
        }
        let others = [self.without_resume, self.without_switch, self.twice];
        let mut counts = self.edges.iter().chain(&self.costs[..3]).chain(&others);
        self.answered(least) && self.costs[3] > 0 && counts.all(|&count| count >= least)
    }
}

impl fmt::Display for Returns {
    fn fmt(&self, into: &mut fmt::Formatter) -> fmt::Result {
        if self.releases == 0 {
            let stay = self.first_edition;
            return write!(into, "{stay} stay with a margin of 0 or more");
        }
        let Returns {
            onward,
            last,
            edges,
            costs,
            without_resume,
            without_switch,
            releases,
            twice,
            ..
        } = self;
        write!(
            into,
            "{onward:?}, final {last:?}, margins 0 and -1 {edges:?}, back with U of 0, 1, more \
            and 2^20 {costs:?}, stay for U {without_resume}, for T {without_switch}; two \
            returns in {twice} of {releases} releases"
        )
    }
}
