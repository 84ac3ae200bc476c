//! The reference's own checks: the worked plans, sheets and logs, the readings taken,
//! the aimed texts, tables that one rule refuses, the two ways of finding the numbers,
//! the final decisions and the stretches of visits against each other, timed runs, worst
//! cases, faster runs, what held the others back and all short runs.

mod cause;
mod compare;
mod faster;
mod finals;
mod large;
mod readings_of_calls;
mod readings_of_texts;
mod replay;
mod sheet;
mod short_runs;
mod small;
mod tables;
mod tally;
mod texts;
mod timed;
mod visits;
mod worked;
mod worst;

use std::panic::{catch_unwind, AssertUnwindSafe};

use tally::Tally;

fn main() {
    let mut tally = Tally::new();
    let parts: [(&str, fn(&mut Tally)); 16] = [
        ("worked plans", worked::check),
        ("sheets", sheet::check),
        ("readings of texts", readings_of_texts::check),
        ("readings of calls", readings_of_calls::check),
        ("texts", texts::check),
        ("tables", tables::check),
        ("logs", replay::check),
        ("listed against composed", compare::check),
        ("final decisions", finals::check),
        ("stretches of visits", visits::check),
        ("large plans", large::check),
        ("timed runs", timed::check),
        ("worst cases", worst::check),
        ("faster runs", faster::check),
        ("causes", cause::check),
        ("short runs", short_runs::check),
    ];
    for (name, check) in parts {
        let before = tally.passed + tally.failed;
        // A part that stops early is a failure like any other; the rest still runs.
        if catch_unwind(AssertUnwindSafe(|| check(&mut tally))).is_err() {
            tally.failed += 1;
            println!("failed: {name} stopped early");
        }
        println!("{name}: {} checks", tally.passed + tally.failed - before);
    }
    println!("{} passed, {} failed", tally.passed, tally.failed);
    if tally.failed > 0 {
        std::process::exit(1);
    }
}
