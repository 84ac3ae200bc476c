//! The delivered reading of plans against the reference: number and line of every
//! refusal, every record and the head of every accepted plan, a release on them,
//! and nothing else written.

mod fixed;
mod random;

use lent::tally::Tally;
use lent::Part;
use reference::plan::{self, MOST_LEAVES};
use reference::rulings::ALL_RULINGS;

const PARTS: &[Part] = &[
    ("fixed", fixed::compare_all),
    ("listed", random::listed_plans),
    ("random", random::compare_all),
    ("met", all_met),
];

/// How many records are lent, beside as many as a text fills.
const ROWS: [usize; 10] = [0, 1, 2, 511, 512, 513, 1_000, 1 << 16, 1 << 32, 1 << 40];

/// A text with all these rows, and with rows around the number of leaves that it
/// would fill.
fn with_rows(tally: &mut Tally, group: &str, text: &[u8]) {
    let leaves = plan::read_lines(text, MOST_LEAVES).map_or(0, |plan| plan.leaves().len());
    let around = [leaves.saturating_sub(1), leaves, leaves + 1];
    for records in around.into_iter().chain(ROWS) {
        tally.text(group, text, records);
    }
}

fn all_met(tally: &mut Tally) {
    println!("  texts accepted (0) and refused: {}", tally.texts);
    let met = tally.texts.met(&ALL_RULINGS, 100);
    tally.holds(met, || "each answer is met a hundred times".to_string());
}

fn main() {
    lent::run(PARTS)
}
