//! The built program that prints all short runs of a plan against the reference: for every
//! text on standard input it writes the reference's list or refusal, byte for byte, and
//! nothing else. Of a long list the first lines are compared: they come at once, they take no
//! more memory the more there are, and where nobody reads on, the program ends.

mod caps;
mod comparison;
mod many;
mod open;
mod random;
mod streams;
mod texts;
mod worked;

use std::path::PathBuf;

use reference::count::{self, Count, Part};

use comparison::Comparison;

const PARTS: &[Part<Comparison>] = &[
    ("worked", worked::compare_all),
    ("texts", texts::compare_all),
    ("streams", streams::compare_all),
    ("random", random::compare_all),
    ("caps", caps::compare_all),
    ("many", many::compare_all),
];

/// The first word is the program.
fn main() {
    let mut words = std::env::args().skip(1);
    let program = PathBuf::from(words.next().expect("the path of the program"));
    let count = Count::new(words);
    count::run(Comparison { program, count }, PARTS, |comparison| {
        &comparison.count
    })
}
