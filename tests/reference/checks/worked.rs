//! The plans that document 01 works through: their listings, the marked cases m1
//! to m12 and the other edges and traps named there.

use reference::calls::Call;
use reference::composed::Composed;
use reference::faster::judge_worked;
use reference::listed::Listed;
use reference::numbers::{listing, Numbers};
use reference::plan;
use reference::worked::{CASES, EMPTY, PLAN_A, PLAN_B, TWICE};
use reference::worked_faster::PAIRS;
use reference::worked_returns::{FREE_RETURN, PLAN_A_2};

use super::faster;
use super::tally::{accepted, Tally};

fn listings(tally: &mut Tally, text: &str, wanted: &str) {
    let plan = accepted(text);
    let listed = Listed::new(&plan, 10_000).expect("a plan of few runs");
    tally.equal(listing(&listed).as_str(), wanted, || {
        format!("listing by runs of {text}")
    });
    let composed = Composed::new(&plan);
    tally.equal(listing(&composed).as_str(), wanted, || {
        format!("composed listing of {text}")
    });
}

fn plan_a(tally: &mut Tally) {
    let wanted = "task 49 93 100 4\npoint 0 1 49 9\npoint 1 1 44 24\n";
    listings(tally, PLAN_A, wanted);
}

/// The listing of an edition 2 plan has U behind T, also where it is 0 (02, L7).
fn second_edition(tally: &mut Tally) {
    let points = "point 0 1 49 9\npoint 1 1 44 24\n";
    listings(tally, PLAN_A_2, &format!("task 49 93 100 4 3\n{points}"));
    listings(tally, FREE_RETURN, &format!("task 49 93 100 4 0\n{points}"));
}

fn plan_b(tally: &mut Tally) {
    let wanted = "task 15 19 200 5\npoint 0 1 3 4\npoint 1 1 15 13\npoint 2 1 8 2\npoint 4 1 4 2\n";
    listings(tally, PLAN_B, wanted);
    let plan = accepted(PLAN_B);
    let numbers = Composed::new(&plan);
    tally.equal(
        (numbers.total(), numbers.max_load_total()),
        (15, 19),
        || "m6".to_string(),
    );
    tally.equal(numbers.stretch(1), 13, || "m7".to_string());
}

fn smallest(tally: &mut Tally) {
    for deadline in [10, 18, 19] {
        let text = format!("(task {deadline} 3\n(fun\n(leaf s 7 9)\n)\n)\n");
        listings(tally, &text, &format!("task 7 9 {deadline} 3\n"));
    }
    listings(tally, EMPTY, "task 0 0 1 0\n");
    let bound = "(task 9 0\n(fun\n(loop s 0 1 1\n)\n)\n)\n";
    tally.equal(plan::read(bound.as_bytes(), 512), Err((3, 3)), || {
        "bound 0".to_string()
    });
}

/// The traps that document 01 names, each with a plan where falling in shows.
fn traps(tally: &mut Tally) {
    // The else part is dearer alone, the then part dearer under load.
    let two_paths = "(task 99 0\n(fun\n(if p 1 1\n(then\n(leaf s 1 9)\n)\n(else\n(leaf s 5 6)\n)\n\
        )\n)\n)\n";
    listings(tally, two_paths, "task 6 10 99 0\npoint 0 1 6 10\n");
    // Loop visits start anew with each call of a function.
    let wanted = "task 6 6 99 0\npoint 0 1 2 1\npoint 1 1 6 1\npoint 2 1 3 1\n";
    listings(tally, TWICE, wanted);
}

/// Pairs of sequences, of which the second is faster or a hypothesis is missing (02, L8).
fn faster_runs(tally: &mut Tally) {
    for pair in PAIRS {
        for lines in pair.sequences {
            tally.calls(pair.name, pair.plan, lines);
        }
        let plan = accepted(pair.plan);
        let composed = Composed::new(&plan);
        let answers = |calls: &[Call]| faster::answers(&composed, calls);
        judge_worked(pair, &answers, &mut |truth, what| tally.holds(truth, what));
    }
}

pub fn check(tally: &mut Tally) {
    for case in CASES.iter().copied().flatten() {
        tally.calls(case.name, case.plan, case.calls);
    }
    plan_a(tally);
    second_edition(tally);
    plan_b(tally);
    smallest(tally);
    traps(tally);
    faster_runs(tally);
}
