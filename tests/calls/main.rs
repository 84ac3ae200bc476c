//! The delivered calls against the reference: reply and every later number of the
//! state, on the plans that the document works through, on the smallest plan, in
//! random histories, on damaged tables and states, on any bytes, in timed runs, in the
//! worst cases of small plans, and in pairs of runs of which one is faster.

mod bytes;
mod damage;
mod damaged;
mod damaged_states;
mod damaged_tables;
mod faster;
mod habit;
mod histories;
mod smallest;
mod timed;
mod worked;
mod world;
mod worst;

use lent::Part;

const PARTS: &[Part] = &[
    ("worked", worked::compare_all),
    ("smallest", smallest::compare_all),
    ("histories", histories::compare_all),
    ("damaged", damaged::compare_all),
    ("bytes", bytes::compare_all),
    ("timed", timed::compare_all),
    ("worst", worst::compare_all),
    ("faster", faster::compare_all),
];

/// How many records are lent, where a part has them all.
const ROWS: [usize; 6] = [0, 1, 2, 512, 513, 1_000];

fn main() {
    lent::run(PARTS)
}
