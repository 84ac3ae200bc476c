//! A stand-in for the program runs, made of the reference, with a difference planted on
//! demand. It shows that the comparison finds them.

#[path = "../../programs/mock/input.rs"]
mod input;
mod lists;
mod out;
mod planted;

use std::path::Path;

use reference::plan::{Form, Kind, Plan};
use reference::short_runs::{Costs, ShortRun};

use out::Out;
use planted::planted;

/// The plan with what is planted in its loops and functions.
fn changed(mut plan: Plan) -> Plan {
    let mut loops = |by: fn(u64) -> u64| {
        plan.change_all(|form| {
            if let Kind::Loop(bound, _) = &mut form.kind {
                *bound = by(*bound);
            }
        })
    };
    match () {
        _ if planted("loops-once-more") => loops(|bound| bound + 1),
        _ if planted("loops-once-less") => loops(|bound| bound - 1),
        _ if planted("first-function-is-main") => plan.functions.truncate(1),
        _ => {}
    }
    plan
}

/// The leaf numbers of a run, those left out that are not to be printed.
fn numbers(plan: &Plan, run: &ShortRun) -> Vec<usize> {
    let mut numbers = run.leaves.clone();
    let leaves = || plan.leaves();
    let is_call = |form: &Form| matches!(form.kind, Kind::Call(_));
    match () {
        _ if planted("points-alone") => numbers.retain(|&leaf| leaves()[leaf].1.point),
        _ if planted("calls-left-out") => numbers.retain(|&leaf| !is_call(leaves()[leaf].1)),
        _ if planted("numbers-from-1") => numbers.iter_mut().for_each(|number| *number += 1),
        _ => {}
    }
    numbers
}

/// The fields of a run's line.
fn fields(plan: &Plan, run: &ShortRun) -> Vec<String> {
    let mut sums = [run.isolated, run.loaded];
    match () {
        _ if planted("sums-turned") => sums.swap(0, 1),
        _ if planted("isolated-for-loaded") => sums[1] = sums[0],
        _ if planted("loaded-for-isolated") => sums[0] = sums[1],
        _ if planted("sums-below-2-20") => sums = sums.map(|sum| sum & 0xf_ffff),
        _ => {}
    }
    let mut fields: Vec<String> = numbers(plan, run).iter().map(usize::to_string).collect();
    match () {
        _ if planted("sums-left-out") => {}
        _ if planted("sums-in-front") => drop(fields.splice(0..0, sums.map(|sum| sum.to_string()))),
        _ => fields.extend(sums.map(|sum| sum.to_string())),
    }
    fields
}

/// The line of the run that visits these leaves.
fn line(plan: &Plan, costs: &Costs, leaves: &[usize]) -> String {
    let mut run = costs.run(leaves);
    if planted("last-visit-not-summed") {
        let before = costs.run(&leaves[..leaves.len().saturating_sub(1)]);
        (run.isolated, run.loaded) = (before.isolated, before.loaded);
    }
    let fields = fields(plan, &run);
    match () {
        _ if leaves.is_empty() && planted("empty-run-without-sums") => "\n".to_string(),
        _ if planted("spaces-doubled") => fields.join("  ") + "\n",
        _ if planted("space-behind") => fields.join(" ") + " \n",
        _ if planted("carriage-returns") => fields.join(" ") + "\r\n",
        _ => fields.join(" ") + "\n",
    }
}

/// Prints the runs of a plan.
fn print_runs(plan: &Plan, out: &mut Out) {
    let costs = Costs::new(plan);
    let mut count = 0;
    lists::each(plan, |leaves| {
        count += 1;
        if leaves.is_empty() && planted("empty-run-left-out") {
            return true;
        }
        out.line(line(plan, &costs, leaves))
    });
    if count == 0 && planted("none-as-empty-run") {
        out.line("0 0\n".to_string());
    }
}

/// Prints the answer to a refused plan.
fn print_refusal(refusal: String, out: &mut Out) {
    match () {
        _ if planted("refusal-as-nothing") => {}
        _ if planted("refusal-as-empty-run") => drop(out.line("0 0\n".to_string())),
        _ if planted("refusal-on-errors") => eprint!("{refusal}"),
        _ => drop(out.line(refusal)),
    }
}

/// The text; an empty one where standard input cannot be read.
fn text() -> Vec<u8> {
    if !Path::new("/dev/stdin").is_dir() {
        return input::input();
    }
    if planted("directory-on-errors") {
        eprintln!("standard input: Is a directory");
    }
    Vec::new()
}

fn main() {
    let plan = input::read(&text());
    let refused = plan.is_err();
    let mut out = Out::default();
    match plan {
        Ok(plan) => print_runs(&changed(plan), &mut out),
        Err(refusal) => print_refusal(input::refused(refusal), &mut out),
    }
    out.finish();
    if planted("words-on-errors") {
        eprintln!("done");
    }
    if planted("status-on-refusal") && refused {
        std::process::exit(1);
    }
}
