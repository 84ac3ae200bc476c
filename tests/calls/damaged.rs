//! Damaged tables and states. The reference decides what is right: a changed
//! number can make the table of another accepted plan, or the state of another
//! place.

use lent::tally::{Met, Tally};

use super::damaged_states;
use super::damaged_tables;

pub fn compare_all(tally: &mut Tally) {
    tally.met = Met::default();
    damaged_tables::compare_all(tally);
    damaged_states::compare_all(tally);
    let met = &tally.met;
    let broken = met.refusals[11];
    println!("  {} calls, {broken} of them refused by 11", met.calls);
    let enough = broken >= 50_000 && met.calls - broken >= 50_000;
    tally.holds(enough, || {
        "broken tables and states, and good ones".to_string()
    });
}
