//! Calls on the plans that document 01 works through, each list from a fresh
//! state, with answers worked out by hand: the marked cases m1 to m5 and m8 to
//! m12, the edges and traps named there, and readings that tell others apart.
//! The reference's own checks and the tests of the proved calls run them all, with
//! those of the last stretch, of the stretch of a visit and of coming back.

use super::calls::Call;
use super::worked_last::LAST_STRETCH;
use super::worked_returns::RETURNS;
use super::worked_visits::OWN_STRETCH;

pub const PLAN_A: &str = "(task 100 4\n(fun\n(leaf p 5 9)\n(loop p 3 2 4\n(leaf s 10 20)\n)\n\
    (leaf s 6 8)\n)\n)\n";

pub const PLAN_B: &str = "(task 200 5\n(fun\n(leaf p 3 4)\n)\n(fun\n(if p 2 3\n(then\n\
    (call p 0 1 2)\n)\n(else\n(leaf s 9 10)\n)\n)\n(call p 0 1 2)\n)\n)\n";

/// A main function with no forms.
pub const EMPTY: &str = "(task 1 0\n(fun\n)\n)\n";

/// Two calls of a function that is a loop of one round.
pub const TWICE: &str =
    "(task 99 0\n(fun\n(loop p 1 1 1\n)\n)\n(fun\n(call p 0 1 1)\n(call p 0 1 1)\n)\n)\n";

/// The smallest plan with this deadline.
macro_rules! smallest {
    ($deadline:literal) => {
        concat!("(task ", $deadline, " 3\n(fun\n(leaf s 7 9)\n)\n)\n")
    };
}
pub(crate) use smallest;

/// Calls one after the other, each line `release`, `report N R` or `end R`
/// followed by ` -> ` and the printed answer wanted.
pub struct Case {
    pub name: &'static str,
    pub plan: &'static str,
    pub calls: &'static [&'static str],
}

/// The call that such a line has before its answer.
pub fn call_of(words: &str) -> Call {
    let fields: Vec<&str> = words.split(' ').collect();
    let number = |at: usize| fields[at].parse().expect("a number");
    match fields[0] {
        "release" => Call::Release,
        "report" => Call::Report(number(1), number(2)),
        "end" => Call::End(number(1)),
        other => panic!("no call: {other}"),
    }
}

pub const CASES: &[&[Case]] = &[
    ON_PLAN_A,
    ON_PLAN_B,
    ON_SMALL_PLANS,
    LATE,
    LAST_STRETCH,
    OWN_STRETCH,
    RETURNS,
];

const ON_PLAN_A: &[Case] = &[
    // The last visit takes 4 ticks and what follows it 8: 100 - 88 - 12.
    Case {
        name: "m1, m4, m5: goes on",
        plan: PLAN_A,
        calls: &[
            "release -> go 49 47 0",
            "report 0 0 -> go 49 38 0",
            "end 0 -> refused 17",
            "report 1 9 -> go 44 19 0",
            "report 1 33 -> go 32 7 0",
            "report 1 52 -> go 20 0 0",
            "report 1 88 -> go 8 0 0",
            "report 1 88 -> refused 17",
            "end 100 -> ended 0",
        ],
    },
    // With margin 0 at visit 3 the last one comes by 52 + 4 + 20, with 100 - 76 - 12 ticks
    // to spare, and the end by 76 + 4 + 8.
    Case {
        name: "never suspended, every visit with its max-load cost",
        plan: PLAN_A,
        calls: &[
            "release -> go 49 47 0",
            "report 0 0 -> go 49 38 0",
            "report 1 9 -> go 44 19 0",
            "report 1 33 -> go 32 7 0",
            "report 1 52 -> go 20 0 0",
            "report 1 76 -> go 8 12 0",
            "end 88 -> ended 0",
        ],
    },
    Case {
        name: "m2: goes on; a loop may be left at any visit",
        plan: PLAN_A,
        calls: &[
            "release -> go 49 47 0",
            "report 0 0 -> go 49 38 0",
            "report 1 28 -> go 44 0 0",
            "end 28 -> ended 0",
        ],
    },
    Case {
        name: "m2: suspends",
        plan: PLAN_A,
        calls: &[
            "release -> go 49 47 0",
            "report 0 0 -> go 49 38 0",
            "report 1 29 -> suspend 44 -1 0",
        ],
    },
    // The worst run reports visit 4 at 57 + 4 + 2 + 10 and ends at 57 + 4 + 20.
    Case {
        name: "m3",
        plan: PLAN_A,
        calls: &[
            "release -> go 49 47 0",
            "report 0 0 -> go 49 38 0",
            "report 1 9 -> go 44 19 0",
            "report 1 33 -> go 32 7 0",
            "report 1 57 -> suspend 20 -5 0",
            "report 1 73 -> stay 8 15 0",
            "end 81 -> resume 0",
        ],
    },
    Case {
        name: "m5: suspends",
        plan: PLAN_A,
        calls: &[
            "release -> go 49 47 0",
            "report 0 0 -> go 49 38 0",
            "report 1 0 -> go 44 28 0",
            "report 1 0 -> go 32 40 0",
            "report 1 0 -> go 20 52 0",
            "report 1 89 -> suspend 8 -1 0",
        ],
    },
    Case {
        name: "once suspended the others stay so, whatever the margin",
        plan: PLAN_A,
        calls: &[
            "release -> go 49 47 0",
            "report 0 39 -> suspend 49 -1 0",
            "report 1 39 -> stay 44 -11 0",
            "report 1 40 -> stay 32 0 0",
            "report 1 41 -> stay 20 11 0",
            "report 1 88 -> stay 8 0 0",
            "end 100 -> resume 0",
        ],
    },
    Case {
        name: "an idle state is idle, an open release busy",
        plan: PLAN_A,
        calls: &[
            "report 0 0 -> refused 14",
            "report 9 0 -> refused 14",
            "end 0 -> refused 14",
            "release -> go 49 47 0",
            "release -> refused 12",
        ],
    },
    Case {
        name: "15 before 16 before 17",
        plan: PLAN_A,
        calls: &[
            "release -> go 49 47 0",
            "report 0 10 -> go 49 28 0",
            "report 2 9 -> refused 15",
            "report 4 9 -> refused 15",
            "report 18446744073709551615 9 -> refused 15",
            "report 0 9 -> refused 16",
            "report 0 10 -> refused 17",
            "end 9 -> refused 16",
            "end 10 -> refused 17",
            "report 1 10 -> go 44 18 0",
        ],
    },
];

const ON_PLAN_B: &[Case] = &[
    Case {
        name: "m8: accepted; m9: by the else part",
        plan: PLAN_B,
        calls: &[
            "release -> go 15 180 0",
            "report 1 0 -> go 15 167 0",
            "report 4 0 -> go 4 189 0",
            "report 0 0 -> go 3 196 0",
            "end 9 -> ended 0",
        ],
    },
    Case {
        name: "m8: astray; m9: by the then part",
        plan: PLAN_B,
        calls: &[
            "release -> go 15 180 0",
            "report 1 0 -> go 15 167 0",
            "report 0 0 -> refused 17",
            "report 2 0 -> go 8 185 0",
            "report 0 0 -> go 7 184 0",
            "end 0 -> refused 17",
            "report 4 0 -> go 4 189 0",
            "end 0 -> refused 17",
            "report 0 0 -> go 3 196 0",
            "end 0 -> ended 0",
        ],
    },
];

const ON_SMALL_PLANS: &[Case] = &[
    Case {
        name: "m10",
        plan: smallest!(9),
        calls: &[
            "release -> refused 13",
            "report 0 0 -> refused 14",
            "end 0 -> refused 14",
        ],
    },
    Case {
        name: "m11: D 10",
        plan: smallest!(10),
        calls: &[
            "release -> go 7 1 0",
            "release -> refused 12",
            "end 10 -> ended 0",
        ],
    },
    Case {
        name: "m11: D 18",
        plan: smallest!(18),
        calls: &["release -> go 7 9 0", "end 18 -> ended 0"],
    },
    Case {
        name: "m12",
        plan: smallest!(19),
        calls: &["release -> go 7 10 0", "end 19 -> ended 0"],
    },
    Case {
        name: "m12: late",
        plan: smallest!(19),
        calls: &["release -> go 7 10 0", "end 20 -> ended 1"],
    },
    Case {
        name: "no forms",
        plan: EMPTY,
        calls: &[
            "release -> go 0 1 0",
            "release -> refused 12",
            "end 0 -> ended 0",
        ],
    },
    Case {
        name: "loop visits start anew with each call of a function",
        plan: TWICE,
        calls: &[
            "release -> go 6 93 0",
            "report 1 0 -> go 6 92 0",
            "report 0 0 -> go 5 93 0",
            "report 0 0 -> go 4 94 0",
            "report 0 0 -> refused 17",
            "report 2 0 -> go 3 95 0",
            "report 0 0 -> go 2 96 0",
            "report 0 0 -> go 1 98 0",
            "report 0 0 -> refused 17",
            "end 0 -> ended 0",
        ],
    },
];

/// Readings at the deadline, at the least margin and at the largest number.
const LATE: &[Case] = &[
    Case {
        name: "late is strict",
        plan: PLAN_A,
        calls: &[
            "release -> go 49 47 0",
            "report 0 100 -> suspend 49 -62 0",
            "report 1 100 -> stay 44 -72 0",
            "report 1 101 -> stay 32 -61 1",
            "end 101 -> resume 1",
            "release -> go 49 47 0",
            "report 0 0 -> go 49 38 0",
            "report 1 0 -> go 44 28 0",
            "end 100 -> ended 0",
        ],
    },
    Case {
        name: "a margin above the least",
        plan: PLAN_A,
        calls: &[
            "release -> go 49 47 0",
            "report 0 4611686018427387941 -> suspend 49 -4611686018427387903 1",
        ],
    },
    // 2^62 + 100 - 49 - 9 - 4 has the least margin that is not held.
    Case {
        name: "a margin is held at -2^62",
        plan: PLAN_A,
        calls: &[
            "release -> go 49 47 0",
            "report 0 4611686018427387942 -> suspend 49 -4611686018427387904 1",
            "report 1 4611686018427387941 -> refused 16",
            "report 1 4611686018427387942 -> stay 44 -4611686018427387904 1",
            "report 1 9223372036854775808 -> stay 32 -4611686018427387904 1",
            "report 1 18446744073709551615 -> stay 20 -4611686018427387904 1",
            "end 18446744073709551615 -> resume 1",
        ],
    },
    // 2^62 + 100 - 12 has it at the last point.
    Case {
        name: "a margin above the least at the last point",
        plan: PLAN_A,
        calls: &[
            "release -> go 49 47 0",
            "report 0 0 -> go 49 38 0",
            "report 1 0 -> go 44 28 0",
            "report 1 0 -> go 32 40 0",
            "report 1 0 -> go 20 52 0",
            "report 1 4611686018427387991 -> suspend 8 -4611686018427387903 1",
            "end 4611686018427387991 -> resume 1",
        ],
    },
    Case {
        name: "a margin is held at -2^62 at the last point",
        plan: PLAN_A,
        calls: &[
            "release -> go 49 47 0",
            "report 0 0 -> go 49 38 0",
            "report 1 0 -> go 44 28 0",
            "report 1 0 -> go 32 40 0",
            "report 1 0 -> go 20 52 0",
            "report 1 4611686018427387993 -> suspend 8 -4611686018427387904 1",
            "end 18446744073709551615 -> resume 1",
        ],
    },
    Case {
        name: "a reading of 2^63",
        plan: PLAN_A,
        calls: &[
            "release -> go 49 47 0",
            "report 0 9223372036854775808 -> suspend 49 -4611686018427387904 1",
        ],
    },
    Case {
        name: "the largest reading",
        plan: PLAN_A,
        calls: &[
            "release -> go 49 47 0",
            "report 0 18446744073709551615 -> suspend 49 -4611686018427387904 1",
        ],
    },
];
