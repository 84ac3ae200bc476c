//! How often visits were met whose stretch is smaller than that of their point (02, L6),
//! by what they were answered, so that none goes untried.

use std::fmt;

use super::calls::{Answer, Word};
use super::edition::Edition;
use super::numbers::Numbers;

#[derive(Default)]
pub struct Visits {
    /// Go, suspend, stay and resume.
    words: [usize; 4],
    /// Margins of 0 and -1.
    edges: [usize; 2],
    /// Those that go on and would not with the stretch of their point.
    spared: usize,
}

impl Visits {
    /// Counts the answer of a decision at this place, if it is one of these.
    pub fn note<N: Numbers>(&mut self, numbers: &N, place: &N::Place, answer: Answer) {
        let Answer::Decision { word, margin, .. } = answer else {
            return;
        };
        let less = numbers.stretch_of_last(place) - numbers.stretch_at(place);
        if less == 0 {
            return;
        }
        self.words[word as usize] += 1;
        self.edges[0] += usize::from(margin == 0);
        self.edges[1] += usize::from(margin == -1);
        self.spared += usize::from(word == Word::Go && margin < less as i64);
    }

    /// Whether each word of this edition, each edge and those that are spared a suspension
    /// were met at least so often.
    pub fn met(&self, edition: Edition, least: usize) -> bool {
        let words = &self.words[..edition.words()];
        let mut counts = words.iter().chain(&self.edges).chain([&self.spared]);
        counts.all(|&count| count >= least)
    }
}

impl fmt::Display for Visits {
    fn fmt(&self, into: &mut fmt::Formatter) -> fmt::Result {
        let Visits {
            words,
            edges,
            spared,
        } = self;
        write!(
            into,
            "{words:?}, margins 0 and -1 {edges:?}, {spared} spared"
        )
    }
}
