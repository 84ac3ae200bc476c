//! The smallest plan, one silent block, read into each row and played there: its
//! numbers at their caps, m10 to m12, where its release turns (no point comes after
//! it), and reports, of which it has none.

use lent::state::State;
use lent::tally::Tally;
use reference::plan::{MOST_COST, MOST_DEADLINE};

use super::{worked, ROWS};

/// Reports once released: whatever the number, it is that of no point.
const NO_POINTS: [&str; 4] = [
    "report 0 0 -> refused 15",
    "report 1 0 -> refused 15",
    "report 512 9 -> refused 15",
    "report 18446744073709551615 18446744073709551615 -> refused 15",
];

fn text(deadline: u64, switch: u64, isolated: u64, loaded: u64) -> String {
    format!("(task {deadline} {switch}\n(fun\n(leaf s {isolated} {loaded})\n)\n)\n")
}

/// Reads a text into each row, with the refusal worked out by hand (a row of no
/// records has no room on line 3), and where it is accepted makes the calls there.
/// The first is made on a fresh state, and the last is to leave one.
fn play(tally: &mut Tally, name: &str, text: &str, refusal: Option<(u32, usize)>, lines: &[&str]) {
    for records in ROWS {
        let (table, found) = tally.text(name, text.as_bytes(), records);
        let no_room = (records == 0 && refusal.is_none()).then_some((4, 3));
        let wanted = refusal.or(no_room);
        tally.holds(found == wanted, || {
            format!("{name}, {records} records: {found:?}, wanted {wanted:?}")
        });
        if found.is_none() {
            let after = worked::calls_on(tally, name, &table, lines);
            tally.holds(after == State::fresh(), || {
                format!("{name}, {records} records: the state at the end is fresh")
            });
        }
    }
}

/// Where no release is accepted.
const UNFIT: [&str; 3] = [
    "release -> refused 13",
    "report 0 0 -> refused 14",
    "end 0 -> refused 14",
];

/// A release and an end, with calls between them that are refused.
fn between<'a>(first: &'a str, last: &'a str) -> Vec<&'a str> {
    let again = ["release -> refused 12"];
    [&[first], &again[..], &NO_POINTS, &[last]].concat()
}

fn marked(tally: &mut Tally) {
    let with = |deadline: u64| text(deadline, 3, 7, 9);
    play(tally, "m10", &with(9), None, &UNFIT);
    let lines = between("release -> go 7 1 0", "end 10 -> ended 0");
    play(tally, "m11", &with(10), None, &lines);
    let lines = between("release -> go 7 9 0", "end 18 -> ended 0");
    play(tally, "m11", &with(18), None, &lines);
    let late = "end 18446744073709551615 -> ended 1";
    let lines = between("release -> go 7 9 0", late);
    play(tally, "m11, late", &with(18), None, &lines);
    let lines = between("release -> go 7 10 0", "end 19 -> ended 0");
    play(tally, "m12", &with(19), None, &lines);
    let lines = between("release -> go 7 10 0", "end 20 -> ended 1");
    play(tally, "m12, late", &with(19), None, &lines);
}

/// With 20 ticks under load the release suspends, from the first deadline that fits on
/// up to a tick below them.
fn dear_under_load(tally: &mut Tally) {
    let with = |deadline: u64| text(deadline, 3, 7, 20);
    play(tally, "D 9, 20 under load", &with(9), None, &UNFIT);
    let lines = between("release -> suspend 7 -10 0", "end 10 -> resume 0");
    play(tally, "D 10, 20 under load", &with(10), None, &lines);
    let late = "end 18446744073709551615 -> resume 1";
    let lines = between("release -> suspend 7 -1 0", late);
    play(tally, "D 19, 20 under load", &with(19), None, &lines);
    let lines = between("release -> go 7 0 0", "end 20 -> ended 0");
    play(tally, "D 20, 20 under load", &with(20), None, &lines);
}

/// The max-load cost at its cap, 2^20, with a switch cost and an isolated cost at their
/// caps or of 0: deadlines around what the plan needs, and the longest, 2^40, with the
/// calls on each.
const AT_CAPS: [(u64, u64, u64, &[&str]); 9] = [
    (
        2 * MOST_COST - 1,
        MOST_COST,
        MOST_COST,
        &["release -> refused 13", "end 0 -> refused 14"],
    ),
    (
        2 * MOST_COST,
        MOST_COST,
        MOST_COST,
        &["release -> go 1048576 1048576 0", "end 2097153 -> ended 1"],
    ),
    (
        3 * MOST_COST,
        MOST_COST,
        MOST_COST,
        &["release -> go 1048576 2097152 0", "end 3145728 -> ended 0"],
    ),
    // 2^40 - 2^20.
    (
        MOST_DEADLINE,
        MOST_COST,
        MOST_COST,
        &[
            "release -> go 1048576 1099510579200 0",
            "report 0 0 -> refused 15",
            "end 1099511627776 -> ended 0",
        ],
    ),
    (
        MOST_COST - 1,
        MOST_COST,
        0,
        &["release -> refused 13", "end 0 -> refused 14"],
    ),
    (
        MOST_COST,
        MOST_COST,
        0,
        &["release -> go 0 0 0", "end 1048576 -> ended 0"],
    ),
    (
        1,
        0,
        0,
        &["release -> suspend 0 -1048575 0", "end 0 -> resume 0"],
    ),
    (
        MOST_COST - 1,
        0,
        0,
        &["release -> suspend 0 -1 0", "end 1048576 -> resume 1"],
    ),
    (
        MOST_COST,
        0,
        0,
        &["release -> go 0 0 0", "end 1048576 -> ended 0"],
    ),
];

fn at_caps(tally: &mut Tally) {
    for (deadline, switch, isolated, lines) in AT_CAPS {
        let text = text(deadline, switch, isolated, MOST_COST);
        play(tally, "costs at their caps", &text, None, lines);
    }
    let lines = [
        "release -> go 0 1099511627776 0",
        "end 1099511627777 -> ended 1",
    ];
    let text = text(MOST_DEADLINE, 0, 0, 0);
    play(tally, "no costs", &text, None, &lines);
}

/// The same in edition 2, with U at its caps: no point comes, so that nobody comes back
/// before the end, and U comes off no margin.
fn second_edition(tally: &mut Tally) {
    for resume in [0, 1, MOST_COST] {
        let line = format!("(task 10 3 {resume}\n");
        let with = |loaded: u64| text(10, 3, 7, loaded).replacen("(task 10 3\n", &line, 1);
        let lines = between("release -> go 7 1 0", "end 10 -> ended 0");
        play(tally, "edition 2", &with(9), None, &lines);
        let lines = between("release -> suspend 7 -10 0", "end 10 -> resume 0");
        play(tally, "edition 2, 20 under load", &with(20), None, &lines);
    }
    let beyond = text(10, 3, 7, 9).replacen(" 3\n", " 3 1048577\n", 1);
    play(tally, "beyond a cap", &beyond, Some((3, 1)), &[]);
}

/// Costs, switch cost and deadline one above their caps, and no deadline.
fn beyond_caps(tally: &mut Tally) {
    let (cost, most) = (MOST_COST, MOST_DEADLINE);
    let beyond = [
        (text(most + 1, 3, 7, 9), 3, 1),
        (text(0, 3, 7, 9), 3, 1),
        (text(most, cost + 1, 7, 9), 3, 1),
        (text(most, cost, 7, cost + 1), 3, 3),
        (text(most, cost, cost + 1, cost + 1), 3, 3),
    ];
    for (text, number, line) in beyond {
        play(tally, "beyond a cap", &text, Some((number, line)), &[]);
    }
}

pub fn compare_all(tally: &mut Tally) {
    marked(tally);
    dear_under_load(tally);
    at_caps(tally);
    second_edition(tally);
    beyond_caps(tally);
}
