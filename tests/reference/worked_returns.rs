//! Calls on small plans of edition 2, worked out by hand, that tell when the others come
//! back (02, L7): while they are suspended U comes off each margin beside what comes off
//! otherwise, and at a margin of 0 they come back. Most readings are the last with which
//! the others run, or one later.

use super::worked::Case;

/// Plan A with another task line.
macro_rules! plan_a {
    ($task:literal) => {
        concat!(
            $task,
            "\n(fun\n(leaf p 5 9)\n(loop p 3 2 4\n(leaf s 10 20)\n)\n(leaf s 6 8)\n)\n)\n"
        )
    };
}

/// Plan A with a U of 3, and of 0.
pub const PLAN_A_2: &str = plan_a!("(task 100 4 3");
pub const FREE_RETURN: &str = plan_a!("(task 100 4 0");

/// A loop of seven visits, at each of which a point can come next but at the last.
pub const SEVEN_VISITS: &str = "(task 60 2 1\n(fun\n(loop p 6 4 8\n)\n)\n)\n";

/// A function that is one point, called twice, with a silent leaf behind each call.
const FILTER_2: &str = "(task 60 3 4\n(fun\n(leaf p 2 4)\n)\n(fun\n(call p 0 1 2)\n\
    (leaf s 5 20)\n(call p 0 1 2)\n(leaf s 1 3)\n)\n)\n";

const TWO_CALLS_2: &str = "(task 30 5 2\n(fun\n(leaf p 2 10)\n)\n(fun\n(call p 0 1 1)\n\
    (call p 0 1 1)\n)\n)\n";

const POINT_IN_ELSE_2: &str = "(task 40 3 2\n(fun\n(if p 2 4\n(then\n(leaf s 3 6)\n)\n(else\n\
    (leaf p 1 5)\n)\n)\n(leaf s 2 7)\n)\n)\n";

/// Two points with 2^20 ticks between them; a U of as many.
pub const LARGEST: &str = "(task 3145730 0 1048576\n(fun\n(leaf p 1 1048576)\n\
    (leaf s 1048576 1048576)\n(leaf p 1 1)\n)\n)\n";

pub(crate) const RETURNS: &[Case] = &[
    // 100 - 73 - 12 - 3; then U takes 3 ticks and the visit 4 + 8.
    Case {
        name: "plan A's worst case comes back at the last visit",
        plan: PLAN_A_2,
        calls: &[
            "release -> go 49 47 0",
            "report 0 0 -> go 49 38 0",
            "report 1 9 -> go 44 19 0",
            "report 1 33 -> go 32 7 0",
            "report 1 57 -> suspend 20 -5 0",
            "report 1 73 -> resume 8 12 0",
            "end 88 -> ended 0",
        ],
    },
    // While suspended visits 1 to 4 need 44 + 24 + 4 + 3, 32 + 31, 20 + 31 and 12 + 3.
    Case {
        name: "back where the loop can turn; refused calls bring nobody back",
        plan: PLAN_A_2,
        calls: &[
            "release -> go 49 47 0",
            "report 0 39 -> suspend 49 -1 0",
            "report 1 39 -> stay 44 -14 0",
            "report 1 39 -> stay 32 -2 0",
            "report 0 49 -> refused 17",
            "report 2 49 -> refused 15",
            "report 1 49 -> resume 20 0 0",
            "report 1 48 -> refused 16",
            "release -> refused 12",
            "report 1 88 -> go 8 0 0",
            "end 100 -> ended 0",
        ],
    },
    Case {
        name: "a tick later there, and back at the last visit",
        plan: PLAN_A_2,
        calls: &[
            "release -> go 49 47 0",
            "report 0 39 -> suspend 49 -1 0",
            "report 1 39 -> stay 44 -14 0",
            "report 1 39 -> stay 32 -2 0",
            "report 1 50 -> stay 20 -1 0",
            "report 1 85 -> resume 8 0 0",
            "end 100 -> ended 0",
        ],
    },
    Case {
        name: "a tick later there too",
        plan: PLAN_A_2,
        calls: &[
            "release -> go 49 47 0",
            "report 0 39 -> suspend 49 -1 0",
            "report 1 39 -> stay 44 -14 0",
            "report 1 39 -> stay 32 -2 0",
            "report 1 50 -> stay 20 -1 0",
            "report 1 86 -> stay 8 -1 0",
            "end 100 -> resume 0",
        ],
    },
    // Running, visits 1 to 4 need 72, 60, 48 and 12.
    Case {
        name: "two stops and two returns, then a return and a stop",
        plan: PLAN_A_2,
        calls: &[
            "release -> go 49 47 0",
            "report 0 0 -> go 49 38 0",
            "report 1 29 -> suspend 44 -1 0",
            "report 1 37 -> resume 32 0 0",
            "report 1 53 -> suspend 20 -1 0",
            "report 1 85 -> resume 8 0 0",
            "end 100 -> ended 0",
            "release -> go 49 47 0",
            "report 0 0 -> go 49 38 0",
            "report 1 29 -> suspend 44 -1 0",
            "report 1 38 -> stay 32 -1 0",
            "report 1 49 -> resume 20 0 0",
            "report 1 89 -> suspend 8 -1 0",
            "end 100 -> resume 0",
        ],
    },
    // Visit k has remaining 32 - 4 * k and stretch 8. Running it needs 10 more than that,
    // suspended 11; the last one 8 and 9.
    Case {
        name: "four stops and three returns",
        plan: SEVEN_VISITS,
        calls: &[
            "release -> go 28 30 0",
            "report 0 23 -> suspend 28 -1 0",
            "report 0 25 -> resume 24 0 0",
            "report 0 31 -> suspend 20 -1 0",
            "report 0 33 -> resume 16 0 0",
            "report 0 39 -> suspend 12 -1 0",
            "report 0 41 -> resume 8 0 0",
            "report 0 53 -> suspend 4 -1 0",
            "end 60 -> resume 0",
        ],
    },
    Case {
        name: "each a tick later: one stop and no return",
        plan: SEVEN_VISITS,
        calls: &[
            "release -> go 28 30 0",
            "report 0 24 -> suspend 28 -2 0",
            "report 0 26 -> stay 24 -1 0",
            "report 0 32 -> stay 20 -3 0",
            "report 0 34 -> stay 16 -1 0",
            "report 0 40 -> stay 12 -3 0",
            "report 0 42 -> stay 8 -1 0",
            "report 0 52 -> stay 4 -1 0",
            "end 60 -> resume 0",
        ],
    },
    // A U of 0 is edition 2 all the same: with two numbers the second visit stays.
    Case {
        name: "a U of 0",
        plan: FREE_RETURN,
        calls: &[
            "release -> go 49 47 0",
            "report 0 39 -> suspend 49 -1 0",
            "report 1 39 -> stay 44 -11 0",
            "report 1 40 -> resume 32 0 0",
            "report 1 41 -> go 20 11 0",
            "report 1 88 -> go 8 0 0",
            "end 100 -> ended 0",
        ],
    },
    Case {
        name: "a U of 1",
        plan: plan_a!("(task 100 4 1"),
        calls: &[
            "release -> go 49 47 0",
            "report 0 39 -> suspend 49 -1 0",
            "report 1 39 -> stay 44 -12 0",
            "report 1 40 -> stay 32 -1 0",
            "report 1 51 -> resume 20 0 0",
            "report 1 89 -> suspend 8 -1 0",
            "end 100 -> resume 0",
        ],
    },
    // 2097153 + 2^20 + 1 is D.
    Case {
        name: "the largest U",
        plan: LARGEST,
        calls: &[
            "release -> go 1048578 2097152 0",
            "report 0 1 -> suspend 1048578 -1 0",
            "report 2 2097153 -> resume 1 0 0",
            "end 3145730 -> ended 0",
            "release -> go 1048578 2097152 0",
            "report 0 1 -> suspend 1048578 -1 0",
            "report 2 2097154 -> stay 1 -1 0",
            "end 3145730 -> resume 0",
        ],
    },
    // 53 - 49 - 4, then 53 - 49 - 9 - 4 and 53 - 44 - 24 - 4 - 2^20.
    Case {
        name: "neither 13 nor release, go and suspend take U off",
        plan: plan_a!("(task 53 4 1048576"),
        calls: &[
            "release -> go 49 0 0",
            "report 0 0 -> suspend 49 -9 0",
            "report 1 0 -> stay 44 -1048595 0",
            "end 0 -> resume 0",
        ],
    },
    Case {
        name: "13 comes first, whatever U is",
        plan: plan_a!("(task 52 4 0"),
        calls: &["release -> refused 13"],
    },
    Case {
        name: "no points: suspended until the end",
        plan: "(task 19 3 5\n(fun\n(leaf s 7 20)\n)\n)\n",
        calls: &["release -> suspend 7 -1 0", "end 10 -> resume 0"],
    },
    // The second call: 30 - 19 - 3 - 1 - 5 - 2. Running, its point needs 10 to the end,
    // suspended 12; in the first call it needs 5 + 10 + 5 + 2.
    Case {
        name: "a function called twice: back at its second call",
        plan: TWO_CALLS_2,
        calls: &[
            "release -> go 6 19 0",
            "report 1 19 -> suspend 6 -1 0",
            "report 0 19 -> stay 5 -11 0",
            "report 2 19 -> resume 3 0 0",
            "report 0 20 -> go 2 0 0",
            "end 30 -> ended 0",
        ],
    },
    Case {
        name: "a function called twice: suspended in its second call",
        plan: TWO_CALLS_2,
        calls: &[
            "release -> go 6 19 0",
            "report 1 19 -> suspend 6 -1 0",
            "report 0 19 -> stay 5 -11 0",
            "report 2 20 -> stay 3 -1 0",
            "report 0 20 -> stay 2 -2 0",
            "end 30 -> resume 0",
        ],
    },
    // In the first call 11 + 24 + 3 + 4, then 4 + 2 + 3 + 4; in the second call 7 + 4.
    Case {
        name: "a filter called twice: back by the stretch of this visit",
        plan: FILTER_2,
        calls: &[
            "release -> go 12 45 0",
            "report 1 44 -> suspend 12 -1 0",
            "report 0 44 -> stay 11 -26 0",
            "report 3 48 -> stay 4 -1 0",
            "report 0 49 -> resume 3 0 0",
            "end 60 -> ended 0",
        ],
    },
    Case {
        name: "a filter called twice: back at the second call",
        plan: FILTER_2,
        calls: &[
            "release -> go 12 45 0",
            "report 1 44 -> suspend 12 -1 0",
            "report 0 44 -> stay 11 -26 0",
            "report 3 47 -> resume 4 0 0",
            "report 0 53 -> go 3 0 0",
            "end 60 -> ended 0",
        ],
    },
    // 40 - 26 - (5 + 7) - 2, and 26 + 2 + 12 is D.
    Case {
        name: "a point in the else part alone: back there",
        plan: POINT_IN_ELSE_2,
        calls: &[
            "release -> go 7 30 0",
            "report 0 14 -> suspend 7 -1 0",
            "report 2 26 -> resume 3 0 0",
            "end 40 -> ended 0",
            "release -> go 7 30 0",
            "report 0 14 -> suspend 7 -1 0",
            "report 2 27 -> stay 3 -1 0",
            "end 40 -> resume 0",
        ],
    },
    // 2^62 + 100 - 75, less a tick, and 2^62 + 100 - 63: the least margin that is not held.
    Case {
        name: "the margin of stay is held at -2^62, U taken off",
        plan: PLAN_A_2,
        calls: &[
            "release -> go 49 47 0",
            "report 0 39 -> suspend 49 -1 0",
            "report 1 4611686018427387928 -> stay 44 -4611686018427387903 1",
            "report 1 4611686018427387941 -> stay 32 -4611686018427387904 1",
            "report 1 18446744073709551615 -> stay 20 -4611686018427387904 1",
            "end 18446744073709551615 -> resume 1",
        ],
    },
];
