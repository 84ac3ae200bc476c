//! How often texts were refused by each rule, and how often accepted.

use std::collections::BTreeMap;
use std::fmt;

use super::plan::Refusal;

/// Every ruling on a text: 0 where it is accepted, else the number of its refusal.
pub const ALL_RULINGS: [u32; 12] = [0, 1, 2, 3, 4, 5, 6, 7, 8, 9, 10, 19];

/// The count of each that was met.
#[derive(Default)]
pub struct Rulings(BTreeMap<u32, usize>);

impl Rulings {
    pub fn note(&mut self, refusal: Option<Refusal>) {
        let number = refusal.map_or(0, |refusal| refusal.0);
        *self.0.entry(number).or_default() += 1;
    }

    /// Whether each of these was met at least so often. A rule that no text meets
    /// would be a rule that was not compared.
    pub fn met(&self, numbers: &[u32], least: usize) -> bool {
        let count = |number| self.0.get(number).copied().unwrap_or(0);
        numbers.iter().all(|number| count(number) >= least)
    }
}

impl fmt::Display for Rulings {
    fn fmt(&self, into: &mut fmt::Formatter) -> fmt::Result {
        write!(into, "{:?}", self.0)
    }
}
