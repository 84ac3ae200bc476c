//! The delivered judging of tables against the reference: a call on any table is
//! refused by 11 exactly where no accepted plan has the table.

mod broken;
mod checking;

use lent::tally::Tally;
use lent::Part;

const PARTS: &[Part] = &[
    ("single numbers", checking::single_numbers),
    ("several numbers", checking::several_numbers),
    ("mixed tables", checking::mixed_tables),
    ("rows and counts", checking::rows_and_counts),
    ("editions", checking::other_editions),
    ("broken rules", checking::broken_rules),
    ("costless", checking::costless_points),
    ("met", all_met),
];

fn all_met(tally: &mut Tally) {
    let bad = tally.met.refusals[11];
    let good = tally.met.calls - bad;
    println!("  calls on good tables: {good}, on bad ones: {bad}");
    let met = good >= 3_000 && bad >= 30_000;
    tally.holds(met, || "good tables and bad ones".to_string());
}

fn main() {
    lent::run(PARTS)
}
