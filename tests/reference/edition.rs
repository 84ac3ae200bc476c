//! The editions of plans (02, L7), and how many plans of each a test makes.

use std::fmt;

#[derive(Clone, Copy, Debug, PartialEq, Eq)]
pub enum Edition {
    First,
    Second,
}

impl Edition {
    /// Edition 2 first, of which a test has less.
    pub const BOTH: [Edition; 2] = [Edition::Second, Edition::First];

    /// How many of something a test has of this edition that has so many of edition 1.
    pub fn share(self, count: usize) -> usize {
        match self {
            Edition::First => count,
            Edition::Second => count / 3,
        }
    }

    /// How many words a report can answer.
    pub fn words(self) -> usize {
        match self {
            Edition::First => 3,
            Edition::Second => 4,
        }
    }
}

impl fmt::Display for Edition {
    fn fmt(&self, into: &mut fmt::Formatter) -> fmt::Result {
        into.write_str(match self {
            Edition::First => "edition 1",
            Edition::Second => "edition 2",
        })
    }
}

/// The edition of each plan of a test that has so many of edition 1; those of edition 2
/// come behind.
pub fn editions(count: usize) -> impl Iterator<Item = Edition> {
    let of_one = move |edition: Edition| (0..edition.share(count)).map(move |_| edition);
    of_one(Edition::First).chain(of_one(Edition::Second))
}
