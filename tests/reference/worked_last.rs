//! Calls on small plans, worked out by hand, that tell where the last stretch begins
//! (02, L3): at the decisions after which no run with the same reports meets a point.
//! There the margin is D - elapsed - stretch, at all others remaining and T come off
//! too. Most readings are the last with which the others go on, or one later.

use super::worked::Case;

/// Two calls of a function that is one point.
pub(crate) const TWO_CALLS: &str = "(task 30 5\n(fun\n(leaf p 2 10)\n)\n(fun\n(call p 0 1 1)\n\
    (call p 0 1 1)\n)\n)\n";

const POINT_IN_ELSE: &str = "(task 40 3\n(fun\n(if p 2 4\n(then\n(leaf s 3 6)\n)\n(else\n\
    (leaf p 1 5)\n)\n)\n(leaf s 2 7)\n)\n)\n";

const POINT_IN_THEN: &str = "(task 40 3\n(fun\n(if p 2 4\n(then\n(leaf p 1 5)\n)\n(else\n\
    (leaf s 3 6)\n)\n)\n(leaf s 2 7)\n)\n)\n";

const BEHIND_IF: &str = "(task 40 3\n(fun\n(if p 2 4\n(then\n(leaf p 1 5)\n)\n(else\n)\n)\n\
    (leaf p 2 7)\n)\n)\n";

const POINT_IN_LOOP: &str =
    "(task 60 6\n(fun\n(loop p 2 1 3\n(leaf p 2 5)\n)\n(leaf s 1 4)\n)\n)\n";

const SILENCE_BEHIND: &str = "(task 30 8\n(fun\n(leaf p 4 6)\n(loop s 2 1 2\n(leaf s 3 4)\n)\n\
    (if s 1 3\n(then\n(leaf s 2 2)\n)\n(else\n)\n)\n)\n)\n";

/// A loop without points, with this deadline.
macro_rules! silent {
    ($deadline:literal) => {
        concat!(
            "(task ",
            $deadline,
            " 2\n(fun\n(loop s 2 1 2\n(leaf s 3 4)\n)\n)\n)\n"
        )
    };
}

/// A silent if with these parts, with this deadline.
macro_rules! choice {
    ($deadline:literal, $first:literal, $second:literal) => {
        concat!(
            "(task ",
            $deadline,
            " 3\n(fun\n(if s 1 2\n(then\n",
            $first,
            "\n)\n(else\n",
            $second,
            "\n)\n)\n)\n)\n"
        )
    };
}

pub(crate) const LAST_STRETCH: &[Case] = &[
    // In the first call 30 - 10 - 5 - 10 - 5, in the second 30 - 20 - 10.
    Case {
        name: "a function called twice: each call goes on as long as it may",
        plan: TWO_CALLS,
        calls: &[
            "release -> go 6 19 0",
            "report 1 0 -> go 6 18 0",
            "report 0 10 -> go 5 0 0",
            "report 2 20 -> go 3 1 0",
            "report 0 20 -> go 2 0 0",
            "end 30 -> ended 0",
        ],
    },
    Case {
        name: "a function called twice: its point is not final in the first call",
        plan: TWO_CALLS,
        calls: &[
            "release -> go 6 19 0",
            "report 1 0 -> go 6 18 0",
            "report 0 11 -> suspend 5 -1 0",
            "report 2 20 -> stay 3 1 0",
            "report 0 20 -> stay 2 0 0",
            "end 30 -> resume 0",
        ],
    },
    Case {
        name: "a function called twice: its point is final in the second call",
        plan: TWO_CALLS,
        calls: &[
            "release -> go 6 19 0",
            "report 1 0 -> go 6 18 0",
            "report 0 0 -> go 5 10 0",
            "report 2 0 -> go 3 21 0",
            "report 0 21 -> suspend 2 -1 0",
            "end 21 -> resume 0",
        ],
    },
    // The call: 20 - 15 - (2 + 3), with 1 + 2 remaining.
    Case {
        name: "a call of a function without points is final",
        plan: "(task 20 5\n(fun\n(leaf s 2 3)\n)\n(fun\n(call p 0 1 2)\n)\n)\n",
        calls: &[
            "release -> go 3 12 0",
            "report 1 15 -> go 3 0 0",
            "end 20 -> ended 0",
        ],
    },
    // The if: 40 - 13 - 7 - (4 + 6 + 7) - 3; the point in it: 40 - 28 - (5 + 7).
    Case {
        name: "a point in the else part alone",
        plan: POINT_IN_ELSE,
        calls: &[
            "release -> go 7 30 0",
            "report 0 13 -> go 7 0 0",
            "report 2 28 -> go 3 0 0",
            "end 40 -> ended 0",
        ],
    },
    Case {
        name: "a point in the else part alone, each reading one later",
        plan: POINT_IN_ELSE,
        calls: &[
            "release -> go 7 30 0",
            "report 0 14 -> suspend 7 -1 0",
            "report 2 29 -> stay 3 -1 0",
            "end 29 -> resume 0",
        ],
    },
    Case {
        name: "a point in the else part alone, the run by the then part",
        plan: POINT_IN_ELSE,
        calls: &[
            "release -> go 7 30 0",
            "report 0 0 -> go 7 13 0",
            "end 17 -> ended 0",
        ],
    },
    Case {
        name: "a point in the then part alone",
        plan: POINT_IN_THEN,
        calls: &[
            "release -> go 7 30 0",
            "report 0 13 -> go 7 0 0",
            "report 1 28 -> go 3 0 0",
            "end 40 -> ended 0",
        ],
    },
    Case {
        name: "a point in the then part alone, each reading one later",
        plan: POINT_IN_THEN,
        calls: &[
            "release -> go 7 30 0",
            "report 0 14 -> suspend 7 -1 0",
            "report 1 29 -> stay 3 -1 0",
            "end 29 -> resume 0",
        ],
    },
    // 40 - 23 - (4 + 6 + 7), with 2 + 3 + 2 remaining.
    Case {
        name: "an if without points in its parts is final",
        plan: "(task 40 3\n(fun\n(if p 2 4\n(then\n(leaf s 3 6)\n)\n(else\n(leaf s 1 5)\n)\n)\n\
            (leaf s 2 7)\n)\n)\n",
        calls: &[
            "release -> go 7 30 0",
            "report 0 23 -> go 7 0 0",
            "end 40 -> ended 0",
            "release -> go 7 30 0",
            "report 0 24 -> suspend 7 -1 0",
            "end 40 -> resume 0",
        ],
    },
    // 30 - 17 - 4 - (2 + 3) - 4 before the if, 30 - 26 - 4 in it.
    Case {
        name: "a silent if with a point in one part comes behind",
        plan: "(task 30 4\n(fun\n(leaf p 1 2)\n(if s 1 3\n(then\n)\n(else\n(leaf p 2 4)\n\
            )\n)\n)\n)\n",
        calls: &[
            "release -> go 4 22 0",
            "report 0 17 -> go 4 0 0",
            "report 2 26 -> go 2 0 0",
            "end 30 -> ended 0",
            "release -> go 4 22 0",
            "report 0 18 -> suspend 4 -1 0",
            "end 30 -> resume 0",
        ],
    },
    // 40 - 28 - 5 - 4 - 3 at the if, 40 - 29 - 3 - 5 - 3 in it, 40 - 33 - 7 behind it.
    Case {
        name: "a point behind an if, by the then part",
        plan: BEHIND_IF,
        calls: &[
            "release -> go 5 32 0",
            "report 0 28 -> go 5 0 0",
            "report 1 29 -> go 3 0 0",
            "report 2 33 -> go 2 0 0",
            "end 40 -> ended 0",
        ],
    },
    Case {
        name: "a point behind an if, by the else part",
        plan: BEHIND_IF,
        calls: &[
            "release -> go 5 32 0",
            "report 0 0 -> go 5 28 0",
            "report 2 34 -> suspend 2 -1 0",
            "end 34 -> resume 0",
        ],
    },
    // 60 - 45 - 4 - 5 - 6 in the last round, from which the loop comes back; at its last
    // visit 60 - 53 - (3 + 4), and its body does not come again.
    Case {
        name: "a loop with a point in its body is final at its last visit",
        plan: POINT_IN_LOOP,
        calls: &[
            "release -> go 8 46 0",
            "report 0 39 -> go 8 0 0",
            "report 1 42 -> go 7 0 0",
            "report 0 42 -> go 5 0 0",
            "report 1 45 -> go 4 0 0",
            "report 0 53 -> go 2 0 0",
            "report 1 53 -> refused 17",
            "end 60 -> ended 0",
        ],
    },
    Case {
        name: "a loop that can turn is not final",
        plan: POINT_IN_LOOP,
        calls: &[
            "release -> go 8 46 0",
            "report 0 0 -> go 8 39 0",
            "report 1 0 -> go 7 42 0",
            "report 0 43 -> suspend 5 -1 0",
            "report 1 45 -> stay 4 0 0",
            "report 0 54 -> stay 2 -1 0",
            "end 60 -> resume 0",
        ],
    },
    Case {
        name: "a point in a loop is not final, in the last round neither",
        plan: POINT_IN_LOOP,
        calls: &[
            "release -> go 8 46 0",
            "report 0 0 -> go 8 39 0",
            "report 1 0 -> go 7 42 0",
            "report 0 0 -> go 5 42 0",
            "report 1 46 -> suspend 4 -1 0",
            "report 0 53 -> stay 2 0 0",
            "end 60 -> resume 0",
        ],
    },
    // 20 - 2 - 2 - 1 at the last visit of the inner loop, 20 - 2 at that of the outer.
    Case {
        name: "the loop around comes back",
        plan: "(task 20 1\n(fun\n(loop p 1 1 2\n(loop p 1 1 2\n)\n)\n)\n)\n",
        calls: &[
            "release -> go 4 15 0",
            "report 0 0 -> go 4 13 0",
            "report 1 0 -> go 3 14 0",
            "report 1 0 -> go 2 15 0",
            "report 0 0 -> go 1 18 0",
            "end 0 -> ended 0",
        ],
    },
    // 30 - 5 - (6 + 14 + 5), with 4 + 9 + 3 remaining.
    Case {
        name: "silent forms alone behind a point",
        plan: SILENCE_BEHIND,
        calls: &[
            "release -> go 16 6 0",
            "report 0 5 -> go 16 0 0",
            "end 30 -> ended 0",
            "release -> go 16 6 0",
            "report 0 6 -> suspend 16 -1 0",
            "end 30 -> resume 0",
        ],
    },
    // It takes 9 ticks alone and 14 under load; with T that is 11.
    Case {
        name: "no points: unfit",
        plan: silent!(10),
        calls: &["release -> refused 13"],
    },
    Case {
        name: "no points: suspends as soon as it fits",
        plan: silent!(11),
        calls: &["release -> suspend 9 -3 0", "end 11 -> resume 0"],
    },
    Case {
        name: "no points: suspends a tick below its stretch",
        plan: silent!(13),
        calls: &["release -> suspend 9 -1 0", "end 11 -> resume 0"],
    },
    Case {
        name: "no points: goes on at its stretch",
        plan: silent!(14),
        calls: &["release -> go 9 0 0", "end 14 -> ended 0"],
    },
    Case {
        name: "no forms, and a switch as long as the deadline",
        plan: "(task 5 5\n(fun\n)\n)\n",
        calls: &["release -> go 0 5 0", "end 5 -> ended 0"],
    },
    // 20 - 6 - (2 + 9) - 3: some run meets a point.
    Case {
        name: "the release of a plan whose point is in an else part",
        plan: choice!(20, "(leaf s 5 9)", "(leaf p 1 1)"),
        calls: &["release -> go 6 0 0", "end 11 -> ended 0"],
    },
    Case {
        name: "the same a tick shorter",
        plan: choice!(19, "(leaf s 5 9)", "(leaf p 1 1)"),
        calls: &[
            "release -> suspend 6 -1 0",
            "report 2 3 -> stay 1 15 0",
            "end 4 -> resume 0",
        ],
    },
    Case {
        name: "the release of a plan whose point is in a then part",
        plan: choice!(20, "(leaf p 1 1)", "(leaf s 5 9)"),
        calls: &["release -> go 6 0 0", "end 11 -> ended 0"],
    },
    Case {
        name: "the same a tick shorter, by the then part",
        plan: choice!(19, "(leaf p 1 1)", "(leaf s 5 9)"),
        calls: &[
            "release -> suspend 6 -1 0",
            "report 1 3 -> stay 1 15 0",
            "end 4 -> resume 0",
        ],
    },
];
