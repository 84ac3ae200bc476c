//! How often decisions were met after which no run meets a further point (02, L3), by
//! what they were answered, so that none goes untried.

use std::fmt;

use super::calls::{Answer, Word};
use super::edition::Edition;
use super::numbers::Numbers;

#[derive(Default)]
pub struct Finals {
    /// Those of releases: go and suspend.
    releases: [usize; 2],
    /// Those of reports: go, suspend, stay and resume.
    reports: [usize; 4],
    /// Margins of 0 and -1.
    edges: [usize; 2],
    /// Those that go on and would not if remaining and T came off there too.
    spared: usize,
}

impl Finals {
    /// Counts the answer of a decision at this place, if it is one of these.
    pub fn note<N: Numbers>(&mut self, numbers: &N, place: &N::Place, answer: Answer) {
        let Answer::Decision {
            word,
            remaining,
            margin,
            ..
        } = answer
        else {
            return;
        };
        if !numbers.is_final(place) {
            return;
        }
        match numbers.last_point(place) {
            None => self.releases[word as usize] += 1,
            Some(_) => self.reports[word as usize] += 1,
        }
        self.edges[0] += usize::from(margin == 0);
        self.edges[1] += usize::from(margin == -1);
        let taken = (remaining + numbers.plan().switch) as i64;
        self.spared += usize::from(word == Word::Go && margin < taken);
    }

    /// Whether each word of this edition was answered at least so often.
    pub fn answered(&self, edition: Edition, least: usize) -> bool {
        let reports = &self.reports[..edition.words()];
        let mut words = self.releases.iter().chain(reports);
        words.all(|&count| count >= least)
    }

    /// Whether so were those at the edges and those that are spared a suspension.
    pub fn met(&self, edition: Edition, least: usize) -> bool {
        let mut others = self.edges.iter().chain([&self.spared]);
        self.answered(edition, least) && others.all(|&count| count >= least)
    }
}

impl fmt::Display for Finals {
    fn fmt(&self, into: &mut fmt::Formatter) -> fmt::Result {
        let Finals {
            releases,
            reports,
            edges,
            spared,
        } = self;
        write!(
            into,
            "releases {releases:?}, reports {reports:?}, margins 0 and -1 {edges:?}, \
            {spared} spared"
        )
    }
}
