//! The plans that document 01 works through: the worked lists of calls of the
//! reference, m6 and m7, and the numbers of the state on the way, by hand.

use lent::calls::{made, Call};
use lent::state::State;
use lent::tally::Tally;
use reference::composed::Composed;
use reference::faster::judge_worked;
use reference::plan;
use reference::records::MAX_LOAD_TURN;
use reference::table::{self, Table, MAX_LOAD_TOTAL, MAX_LOAD_TOTALS, TOTAL, TOTALS};
use reference::worked::{call_of, CASES, PLAN_A, PLAN_B, TWICE};
use reference::worked_faster::PAIRS;

use super::faster;

/// The table of a text that must be accepted.
fn of_text(text: &str) -> Table {
    let plan = plan::read(text.as_bytes(), 512);
    let plan = plan.unwrap_or_else(|refusal| panic!("{refusal:?}: {text}"));
    table::table(&Composed::new(&plan))
}

/// Calls one after the other, each line `release`, `report N R` or `end R`
/// followed by ` -> ` and the printed answer wanted. The state afterwards comes
/// back.
pub fn calls_on(tally: &mut Tally, name: &str, table: &Table, lines: &[&str]) -> State {
    let mut state = State::fresh();
    for line in lines {
        let (words, wanted) = line.split_once(" -> ").expect("a call and its answer");
        let call = call_of(words);
        let mut after = state.clone();
        let found = made(table, &mut after, call).and_then(|reply| reply.answer(call));
        let right = found.is_some_and(|answer| answer.line() == wanted);
        tally.holds(right, || {
            format!("{name}: {words} gives {found:?}, wanted {wanted}")
        });
        let kept = !wanted.starts_with("refused") || after == state;
        tally.holds(kept, || {
            format!("{name}: {words} is refused and moves the state")
        });
        state = after;
    }
    state
}

/// The same on the table of a text.
fn calls(tally: &mut Tally, name: &str, text: &str, lines: &[&str]) -> State {
    calls_on(tally, name, &of_text(text), lines)
}

/// The same, with the state wanted afterwards: reading, whether the others are
/// suspended, for each level leaf and earlier visits, and the remaining times.
fn calls_to(
    tally: &mut Tally,
    name: &str,
    text: &str,
    lines: &[&str],
    wanted: (u64, bool, &[(u64, u64)], &[u64]),
) {
    let found = calls(tally, name, text, lines);
    let (reading, suspended, stack, from_below) = wanted;
    let mut times = [0; 33];
    times[..from_below.len()].copy_from_slice(from_below);
    let wanted = State::standing(stack, &times).decided(reading, suspended);
    tally.holds(found == wanted, || {
        format!("{name}: state {found:?}, wanted {wanted:?}")
    });
}

/// The first calls of plan A, and the four visits of its loop.
const FIRST: [&str; 2] = ["release -> go 49 47 0", "report 0 0 -> go 49 38 0"];
const VISITS: [&str; 4] = [
    "report 1 9 -> go 44 19 0",
    "report 1 33 -> go 32 7 0",
    "report 1 52 -> go 20 0 0",
    "report 1 88 -> go 8 0 0",
];

fn plan_a(tally: &mut Tally) {
    let wanted = (0, false, &[][..], &[49][..]);
    calls_to(tally, "release", PLAN_A, &FIRST[..1], wanted);
    let wanted = (0, false, &[(0, 0)][..], &[49, 49][..]);
    calls_to(tally, "first", PLAN_A, &FIRST, wanted);
    // A round under load: the condition and the body, 4 + 20.
    let turns = of_text(PLAN_A).row.into_iter();
    let turns = turns.map(|record| record[MAX_LOAD_TURN]);
    tally.holds(turns.eq([0, 24, 0, 0]), || "max-load turns".to_string());
    let remaining = [44, 32, 20, 8];
    let readings = [9, 33, 52, 88];
    for visit in 0..4 {
        let lines = [&FIRST[..], &VISITS[..=visit]].concat();
        let stack = [(1, visit as u64)];
        let times = [49, remaining[visit]];
        let wanted = (readings[visit], false, &stack[..], &times[..]);
        calls_to(tally, "m1, m5", PLAN_A, &lines, wanted);
    }
    let fifth = [&FIRST[..], &VISITS, &["report 1 88 -> refused 17"]].concat();
    let wanted = (88, false, &[(1, 3)][..], &[49, 8][..]);
    calls_to(tally, "m4", PLAN_A, &fifth, wanted);
}

fn suspended(tally: &mut Tally) {
    let suspends = ["report 1 89 -> suspend 8 -1 0"];
    let lines = [&FIRST[..], &VISITS[..3], &suspends].concat();
    let wanted = (89, true, &[(1, 3)][..], &[49, 8][..]);
    calls_to(tally, "m5", PLAN_A, &lines, wanted);
    let stays = [
        "report 1 57 -> suspend 20 -5 0",
        "report 1 73 -> stay 8 15 0",
    ];
    let lines = [&FIRST[..], &VISITS[..2], &stays].concat();
    let wanted = (73, true, &[(1, 3)][..], &[49, 8][..]);
    calls_to(tally, "m3", PLAN_A, &lines, wanted);
}

fn plan_b(tally: &mut Tally) {
    let table = of_text(PLAN_B);
    let totals = [table.head[TOTAL], table.head[MAX_LOAD_TOTAL]];
    tally.holds(totals == [15, 19], || "m6".to_string());
    let totals = [TOTALS, MAX_LOAD_TOTALS].map(|first| [table.head[first], table.head[first + 1]]);
    tally.holds(totals == [[3, 15], [4, 19]], || "totals".to_string());
    // m7: 200 - 15 - 13 - 5 at the report of point 1.
    let to_branch = ["release -> go 15 180 0", "report 1 0 -> go 15 167 0"];
    let by_else = ["report 4 0 -> go 4 189 0", "report 0 0 -> go 3 196 0"];
    let lines = [to_branch, by_else].concat();
    let wanted = (0, false, &[(4, 0), (0, 0)][..], &[15, 4, 3][..]);
    calls_to(tally, "m9, by else", PLAN_B, &lines, wanted);
    let by_then = ["report 2 0 -> go 8 185 0", "report 0 0 -> go 7 184 0"];
    let lines = [to_branch, by_then].concat();
    let wanted = (0, false, &[(2, 0), (0, 0)][..], &[15, 8, 7][..]);
    calls_to(tally, "m9, by then", PLAN_B, &lines, wanted);
}

/// After the second call of the loop and its second visit there.
fn visits_anew(tally: &mut Tally) {
    let lines = [
        "release -> go 6 93 0",
        "report 1 0 -> go 6 92 0",
        "report 0 0 -> go 5 93 0",
        "report 2 0 -> go 3 95 0",
        "report 0 0 -> go 2 96 0",
        "report 0 0 -> go 1 98 0",
    ];
    let wanted = (0, false, &[(2, 0), (0, 1)][..], &[6, 3, 1][..]);
    calls_to(tally, "two calls of a loop", TWICE, &lines, wanted);
}

/// Pairs of sequences, of which the second is faster or a hypothesis is missing.
fn faster_runs(tally: &mut Tally) {
    for pair in PAIRS {
        let table = of_text(pair.plan);
        for lines in pair.sequences {
            calls_on(tally, pair.name, &table, lines);
        }
        let answers = |calls: &[Call]| faster::answers(&table, calls);
        judge_worked(pair, &answers, &mut |truth, what| tally.holds(truth, what));
    }
}

pub fn compare_all(tally: &mut Tally) {
    for case in CASES.iter().copied().flatten() {
        calls(tally, case.name, case.plan, case.calls);
    }
    plan_a(tally);
    suspended(tally);
    plan_b(tally);
    visits_anew(tally);
    faster_runs(tally);
}
