//! The readings taken where document 01 leaves something open about the table,
//! the margin and the times kept, and document 02 about final decisions and stretches,
//! each with an example that tells it from the other reading. Those about the calls
//! are among the worked lists of calls.

use reference::aimed::{task, words};
use reference::calls::{margin, LEAST_MARGIN};
use reference::composed::Composed;
use reference::listed::Listed;
use reference::numbers::{listing, Numbers};
use reference::worked::{EMPTY, PLAN_A, PLAN_B, TWICE};
use reference::worked_visits::{CALLED_IN_LOOP, FILTER, TWO_DEPTHS};

use super::tally::{accepted, Tally};

fn tables(tally: &mut Tally) {
    let both = |tally: &mut Tally, reading: &str, functions: &[Vec<String>], wanted: &str| {
        let plan = accepted(&task(functions));
        let listed = Listed::new(&plan, 10_000).expect("a plan of few runs");
        tally.equal(listing(&listed).as_str(), wanted, || {
            format!("{reading}, by runs")
        });
        tally.equal(listing(&Composed::new(&plan)).as_str(), wanted, || {
            format!("{reading}, composed")
        });
    };
    let first_visit = words(&["(loop p 3 1 1", "(leaf p 2 2)", ")"]);
    let wanted = "task 10 10 1099511627776 3\npoint 0 1 10 1\npoint 1 2 9 2\n";
    both(
        tally,
        "a first visit is in the first round",
        &[first_visit],
        wanted,
    );

    // Point 0 runs on into the caller's silent leaf; its number in its own
    // function stays 1. Points of all functions are listed in leaf order.
    let callee = words(&["(leaf p 1 2)"]);
    let caller = words(&["(call p 0 3 4)", "(leaf s 10 20)", "(leaf p 5 6)"]);
    let wanted = "task 19 32 1099511627776 3\npoint 0 1 1 22\npoint 1 1 19 4\npoint 3 1 5 6\n";
    both(
        tally,
        "a stretch runs on into the callers",
        &[callee, caller],
        wanted,
    );
}

fn margins(tally: &mut Tally) {
    tally.equal(margin(1, 1 << 62, 0), LEAST_MARGIN + 1, || {
        "margin above".to_string()
    });
    tally.equal(margin(0, 1 << 62, 0), LEAST_MARGIN, || {
        "margin at".to_string()
    });
    tally.equal(margin(0, (1 << 62) + 1, 0), LEAST_MARGIN, || {
        "margin below".to_string()
    });
}

/// Remaining times of the levels: the latest report of each level up to that
/// of the last point, 0 above, the total at level 0.
fn times(tally: &mut Tally) {
    let callee = words(&["(loop p 2 1 1", "(leaf p 4 4)", ")"]);
    let caller = words(&["(call p 0 2 2)", "(leaf p 7 7)"]);
    let plan = accepted(&task(&[callee, caller]));
    let listed = Listed::new(&plan, 10_000).expect("a plan of few runs");
    let composed = Composed::new(&plan);
    // Total 2 + 1 + 2 * (4 + 1) + 7 = 20. Leaves: loop 0, leaf 1, call 2, leaf 3.
    let steps: [(usize, [u64; 4]); 5] = [
        (2, [20, 20, 0, 0]),
        (0, [20, 20, 18, 0]),
        (1, [20, 20, 18, 17]),
        (0, [20, 20, 13, 0]),
        (3, [20, 7, 0, 0]),
    ];
    let mut history = listed.release();
    let mut place = composed.release();
    for (leaf, wanted) in steps {
        history = listed
            .report(&history, leaf)
            .expect("a run has this report");
        place = composed
            .report(&place, leaf)
            .expect("a run has this report");
        let padded: Vec<u64> = wanted.into_iter().chain([0; 29]).collect();
        tally.equal(listed.times(&history).to_vec(), padded.clone(), || {
            format!("times at {leaf}, by runs")
        });
        tally.equal(composed.times(&place).to_vec(), padded, || {
            format!("times at {leaf}, composed")
        });
    }
}

/// Reports one after the other, and after how many of them no run meets a further
/// point; None where some run does after each, the release's decision included.
const FINAL: [(&str, &[usize], Option<usize>); 11] = [
    (EMPTY, &[], Some(0)),
    // Plan A's loop at its fourth visit; before that it can turn.
    (PLAN_A, &[0, 1, 1, 1], None),
    (PLAN_A, &[0, 1, 1, 1, 1], Some(5)),
    // By runs, not by text: the point of function 0 is final in the second call alone,
    // whichever part of the if the run has taken.
    (PLAN_B, &[1, 2, 0, 4], None),
    (PLAN_B, &[1, 2, 0, 4, 0], Some(5)),
    (PLAN_B, &[1, 4], None),
    (PLAN_B, &[1, 4, 0], Some(3)),
    // A loop in a function that is called twice is final at its last visit there.
    (TWICE, &[1, 0, 0, 2, 0], None),
    (TWICE, &[1, 0, 0, 2, 0, 0], Some(6)),
    (TWICE, &[1, 0, 2, 0], None),
    (TWICE, &[1, 0, 2, 0, 0], Some(5)),
];

/// How many of these reports it takes until a decision is final.
fn until_final<N: Numbers>(numbers: &N, reports: &[usize]) -> Option<usize> {
    let mut place = numbers.release();
    for (count, &leaf) in reports.iter().enumerate() {
        if numbers.is_final(&place) {
            return Some(count);
        }
        let next = numbers.report(&place, leaf);
        place = next.expect("a run has this report");
    }
    numbers.is_final(&place).then_some(reports.len())
}

fn final_decisions(tally: &mut Tally) {
    for (text, reports, wanted) in FINAL {
        let plan = accepted(text);
        let listed = Listed::new(&plan, 10_000).expect("a plan of few runs");
        tally.equal(until_final(&listed, reports), wanted, || {
            format!("final decision of {reports:?}, by runs")
        });
        let composed = Composed::new(&plan);
        tally.equal(until_final(&composed, reports), wanted, || {
            format!("final decision of {reports:?}, composed")
        });
    }
}

/// Reports one after the other, with the stretch of each visit behind that of the
/// release, and last the listing, in which each point has the largest of all its visits
/// (02, L6).
type Stretches = (&'static str, &'static [usize], &'static [u64], &'static str);

const STRETCHES: [Stretches; 5] = [
    // The release as ever, and the fourth visit 4 + 8.
    (
        PLAN_A,
        &[0, 1, 1, 1, 1],
        &[0, 9, 24, 24, 24, 12],
        "task 49 93 100 4\npoint 0 1 49 9\npoint 1 1 44 24\n",
    ),
    // The point of function 0 takes 4 + 20 up to the second call, then 4 + 3.
    (
        FILTER,
        &[1, 0, 3, 0],
        &[0, 2, 24, 2, 7],
        "task 12 35 60 3\npoint 0 1 2 24\npoint 1 1 12 2\npoint 3 1 4 2\n",
    ),
    // 3 + 5 + 10 by the call in function 1, 3 by that in the main one.
    (
        TWO_DEPTHS,
        &[3, 1, 0, 5, 0, 6],
        &[0, 2, 1, 18, 2, 3, 1],
        "task 12 27 70 2\npoint 0 1 1 18\npoint 1 1 4 1\npoint 3 1 12 2\npoint 5 1 3 2\n\
            point 6 1 1 1\n",
    ),
    // In the loop 2 + 9, then 2 + 7; behind it 2 + 20 at both visits.
    (
        CALLED_IN_LOOP,
        &[2, 3, 0, 0, 2, 5, 0, 0],
        &[0, 1, 1, 11, 9, 1, 1, 22, 22],
        "task 16 57 100 5\npoint 0 1 4 22\npoint 2 1 16 1\npoint 3 2 15 1\npoint 5 1 8 1\n",
    ),
    // Silent leaves before the first point are the release's alone.
    (
        "(task 99 0\n(fun\n(leaf s 1 8)\n(loop p 1 1 2\n(leaf s 1 5)\n)\n)\n)\n",
        &[1, 1],
        &[8, 7, 2],
        "task 4 17 99 0\npoint 1 1 3 7\n",
    ),
];

/// The stretches at the release and at these reports.
fn stretches_on<N: Numbers>(numbers: &N, reports: &[usize]) -> Vec<u64> {
    let mut place = numbers.release();
    let mut found = vec![numbers.stretch_at(&place)];
    for &leaf in reports {
        place = numbers.report(&place, leaf).expect("a run has this report");
        found.push(numbers.stretch_at(&place));
    }
    found
}

fn stretches(tally: &mut Tally) {
    for (text, reports, wanted, lines) in STRETCHES {
        let plan = accepted(text);
        let listed = Listed::new(&plan, 10_000).expect("a plan of few runs");
        let composed = Composed::new(&plan);
        tally.equal(stretches_on(&listed, reports), wanted.to_vec(), || {
            format!("stretches of {reports:?}, by runs")
        });
        tally.equal(stretches_on(&composed, reports), wanted.to_vec(), || {
            format!("stretches of {reports:?}, composed")
        });
        tally.equal(listing(&listed).as_str(), lines, || {
            format!("listing of {text}, by runs")
        });
        tally.equal(listing(&composed).as_str(), lines, || {
            format!("listing of {text}, composed")
        });
    }
}

pub fn check(tally: &mut Tally) {
    stretches(tally);
    tables(tally);
    margins(tally);
    times(tally);
    final_decisions(tally);
}
