//! The same calls with the same checks on the same memory in plain safe Rust: what the proved calls are measured against.

pub mod calls;
pub mod check;
mod derive;
mod lines;
pub mod place;
mod read;

pub use calls::{end, release, report};
pub use read::read;

/// The ranges of document 01.
const MOST_COST: u64 = 1 << 20;
const MOST_SWITCHING: u64 = 1 << 20;
const MOST_RESUME: u64 = 1 << 20;
const MOST_TIME: u64 = 1 << 40;
const MOST_ROUNDS: u64 = 65_535;
const MOST_TARGET: u64 = 15;
const MOST_LEVEL: u64 = 32;
const MOST_BRACKETS: usize = 64;

/// The editions of document 02, L7.
const FIRST: u64 = 1;
const SECOND: u64 = 2;

/// The brackets open inside a function: the task's and its own.
const FUNCTION_BRACKETS: usize = 2;

/// What forms are like from outside: their greatest level, called forms included, and whether a point is among them.
#[derive(Clone, Copy, Default)]
struct Inside {
    height: u64,
    loud: bool,
}

impl Inside {
    fn and(self, other: Inside) -> Inside {
        Inside {
            height: self.height.max(other.height),
            loud: self.loud || other.loud,
        }
    }
}
