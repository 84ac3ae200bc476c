//! Calls on small plans, worked out by hand, in which the stretch of a visit (02, L6) is
//! not that of every other visit of its point: functions that are called from several
//! places and depths, and loops at their last visit. Most readings are the last with
//! which the others go on, or one later.

use super::worked::Case;

/// Behind the first call come 20 ticks under load, behind the second 3.
pub const FILTER: &str = "(task 60 3\n(fun\n(leaf p 2 4)\n)\n(fun\n(call p 0 1 2)\n(leaf s 5 20)\n\
    (call p 0 1 2)\n(leaf s 1 3)\n)\n)\n";

/// Function 0 is called by function 1, behind which more comes in the main one, and by
/// the main one, where a point follows.
pub const TWO_DEPTHS: &str = "(task 70 2\n(fun\n(leaf p 1 3)\n)\n(fun\n(call p 0 1 1)\n\
    (leaf s 2 5)\n)\n(fun\n(call p 1 1 2)\n(leaf s 4 10)\n(call p 0 1 2)\n(leaf p 1 1)\n)\n)\n";

const LOOP_BEFORE_POINT: &str = "(task 80 3\n(fun\n(loop p 2 1 2\n(leaf s 4 15)\n)\n\
    (leaf s 1 3)\n(leaf p 2 5)\n)\n)\n";

const LOOP_IN_LOOP: &str = "(task 90 2\n(fun\n(loop p 1 1 2\n(leaf s 1 4)\n(loop p 1 2 3\n\
    (leaf s 3 11)\n)\n(leaf s 1 6)\n)\n(leaf s 2 9)\n)\n)\n";

/// Behind the first call comes an if with a point in its else part alone.
pub const IF_BEHIND_CALL: &str = "(task 60 4\n(fun\n(leaf p 1 2)\n)\n(fun\n(call p 0 1 1)\n\
    (if s 1 3\n(then\n(leaf s 2 8)\n)\n(else\n(leaf p 1 1)\n)\n)\n(leaf s 1 5)\n\
    (call p 0 1 1)\n)\n)\n";

/// A loop in a function that is called in a loop, and behind it.
pub const CALLED_IN_LOOP: &str = "(task 100 5\n(fun\n(loop p 1 1 2\n(leaf s 2 9)\n)\n)\n(fun\n\
    (loop p 1 1 1\n(call p 0 1 1)\n(leaf s 1 7)\n)\n(call p 0 1 1)\n(leaf s 3 20)\n)\n)\n";

/// A call of a function without points, in a function that is called twice.
const SILENT_CALL: &str = "(task 50 2\n(fun\n(leaf s 1 4)\n)\n(fun\n(call p 0 1 2)\n)\n(fun\n\
    (call p 1 1 1)\n(leaf s 2 9)\n(call p 1 1 1)\n)\n)\n";

/// An if with a point in its else part alone, in a function that is called twice.
pub const IF_CALLED_TWICE: &str =
    "(task 60 3\n(fun\n(if p 1 2\n(then\n)\n(else\n(leaf p 1 4)\n)\n)\n\
    )\n(fun\n(call p 0 1 1)\n(leaf s 1 12)\n(call p 0 1 1)\n)\n)\n";

/// Behind the first call of function 1 come a silent call and a silent loop.
pub const SILENCE_BETWEEN: &str =
    "(task 60 3\n(fun\n(leaf s 1 6)\n)\n(fun\n(leaf p 2 3)\n)\n(fun\n\
    (call p 1 1 1)\n(call s 0 1 2)\n(loop s 2 1 1\n(leaf s 1 4)\n)\n(call p 1 1 1)\n\
    (leaf s 1 2)\n)\n)\n";

pub(crate) const OWN_STRETCH: &[Case] = &[
    // In the first call 60 - 22 - 11 - (4 + 20) - 3, in the second 60 - 53 - (4 + 3).
    Case {
        name: "a filter called twice: each call is charged with its own tail",
        plan: FILTER,
        calls: &[
            "release -> go 12 45 0",
            "report 1 0 -> go 12 43 0",
            "report 0 22 -> go 11 0 0",
            "report 3 46 -> go 4 5 0",
            "report 0 53 -> go 3 0 0",
            "end 60 -> ended 0",
        ],
    },
    Case {
        name: "a filter called twice: suspended in the first call",
        plan: FILTER,
        calls: &[
            "release -> go 12 45 0",
            "report 1 0 -> go 12 43 0",
            "report 0 23 -> suspend 11 -1 0",
            "report 3 23 -> stay 4 28 0",
            "report 0 53 -> stay 3 0 0",
            "end 60 -> resume 0",
        ],
    },
    Case {
        name: "a filter called twice: suspended in the second call",
        plan: FILTER,
        calls: &[
            "release -> go 12 45 0",
            "report 1 0 -> go 12 43 0",
            "report 0 0 -> go 11 22 0",
            "report 3 0 -> go 4 51 0",
            "report 0 54 -> suspend 3 -1 0",
            "end 60 -> resume 0",
        ],
    },
    // By function 1 70 - 40 - 10 - (3 + 5 + 10) - 2, by the main one 70 - 63 - 2 - 3 - 2,
    // up to the point behind the call.
    Case {
        name: "a function called at two depths",
        plan: TWO_DEPTHS,
        calls: &[
            "release -> go 12 56 0",
            "report 3 0 -> go 12 54 0",
            "report 1 0 -> go 11 56 0",
            "report 0 40 -> go 10 0 0",
            "report 5 58 -> go 3 5 0",
            "report 0 63 -> go 2 0 0",
            "report 6 69 -> go 1 0 0",
            "end 70 -> ended 0",
        ],
    },
    Case {
        name: "a function called at two depths: suspended in the deeper",
        plan: TWO_DEPTHS,
        calls: &[
            "release -> go 12 56 0",
            "report 3 0 -> go 12 54 0",
            "report 1 0 -> go 11 56 0",
            "report 0 41 -> suspend 10 -1 0",
        ],
    },
    Case {
        name: "a function called at two depths: suspended in the other",
        plan: TWO_DEPTHS,
        calls: &[
            "release -> go 12 56 0",
            "report 3 0 -> go 12 54 0",
            "report 1 0 -> go 11 56 0",
            "report 0 40 -> go 10 0 0",
            "report 5 58 -> go 3 5 0",
            "report 0 64 -> suspend 2 -1 0",
            "report 6 64 -> stay 1 5 0",
            "end 70 -> resume 0",
        ],
    },
    // 80 - 51 - 9 - (2 + 15) - 3 while the loop may turn, 80 - 68 - 4 - (2 + 3) - 3 at its
    // last visit, behind which a point still comes.
    Case {
        name: "the last visit of a loop is not charged with its body",
        plan: LOOP_BEFORE_POINT,
        calls: &[
            "release -> go 14 63 0",
            "report 0 46 -> go 14 0 0",
            "report 0 51 -> go 9 0 0",
            "report 0 68 -> go 4 0 0",
            "report 3 75 -> go 2 0 0",
            "end 80 -> ended 0",
        ],
    },
    Case {
        name: "the last visit of a loop, a tick later",
        plan: LOOP_BEFORE_POINT,
        calls: &[
            "release -> go 14 63 0",
            "report 0 46 -> go 14 0 0",
            "report 0 51 -> go 9 0 0",
            "report 0 69 -> suspend 4 -1 0",
            "report 3 75 -> stay 2 0 0",
            "end 80 -> resume 0",
        ],
    },
    Case {
        name: "a loop that may turn is charged with its body",
        plan: LOOP_BEFORE_POINT,
        calls: &[
            "release -> go 14 63 0",
            "report 0 0 -> go 14 46 0",
            "report 0 52 -> suspend 9 -1 0",
        ],
    },
    // The inner loop: 90 - 63 - 11 - (3 + 11) - 2, and at its last visit, up to the outer
    // one's next, 90 - 73 - 6 - (3 + 6) - 2. The outer one: 90 - 79 - (2 + 9).
    Case {
        name: "a loop in a loop, at its last visit",
        plan: LOOP_IN_LOOP,
        calls: &[
            "release -> go 13 75 0",
            "report 0 0 -> go 13 64 0",
            "report 2 63 -> go 11 0 0",
            "report 2 73 -> go 6 0 0",
            "report 0 79 -> go 3 0 0",
            "end 90 -> ended 0",
        ],
    },
    Case {
        name: "a loop in a loop, at its last visit, a tick later",
        plan: LOOP_IN_LOOP,
        calls: &[
            "release -> go 13 75 0",
            "report 0 0 -> go 13 64 0",
            "report 2 63 -> go 11 0 0",
            "report 2 74 -> suspend 6 -1 0",
            "report 0 79 -> stay 3 0 0",
            "end 90 -> resume 0",
        ],
    },
    // In the first call 60 - 31 - 7 - (2 + 3 + 8 + 5) - 4, by the then part; the point of
    // the else part has 60 - 36 - 4 - (1 + 5) - 4; in the second call 60 - 58 - 2.
    Case {
        name: "an if with one silent part behind a call, by the else part",
        plan: IF_BEHIND_CALL,
        calls: &[
            "release -> go 8 48 0",
            "report 1 0 -> go 8 47 0",
            "report 0 31 -> go 7 0 0",
            "report 4 36 -> go 4 10 0",
            "report 6 42 -> go 2 11 0",
            "report 0 58 -> go 1 0 0",
            "end 60 -> ended 0",
        ],
    },
    Case {
        name: "an if with one silent part behind a call, by the then part",
        plan: IF_BEHIND_CALL,
        calls: &[
            "release -> go 8 48 0",
            "report 1 0 -> go 8 47 0",
            "report 0 31 -> go 7 0 0",
            "report 6 49 -> go 2 4 0",
            "report 0 59 -> suspend 1 -1 0",
            "end 60 -> resume 0",
        ],
    },
    Case {
        name: "an if with one silent part behind a call, a tick later",
        plan: IF_BEHIND_CALL,
        calls: &[
            "release -> go 8 48 0",
            "report 1 0 -> go 8 47 0",
            "report 0 32 -> suspend 7 -1 0",
        ],
    },
    // In the loop of the main function: 100 - 70 - 14 - (2 + 9) - 5, then, at the last
    // visit, 100 - 75 - 11 - (2 + 7) - 5. In the other call: 100 - 66 - 7 - (2 + 20) - 5,
    // the way out being dearer than the body, and at the last visit 100 - 78 - (2 + 20).
    Case {
        name: "a loop called in a loop and behind it: in the loop",
        plan: CALLED_IN_LOOP,
        calls: &[
            "release -> go 16 79 0",
            "report 2 0 -> go 16 78 0",
            "report 3 1 -> go 15 78 0",
            "report 0 70 -> go 14 0 0",
            "report 0 75 -> go 11 0 0",
            "report 2 85 -> go 9 0 0",
            "report 5 86 -> go 8 0 0",
            "report 0 86 -> suspend 7 -20 0",
            "report 0 86 -> stay 4 -8 0",
            "end 100 -> resume 0",
        ],
    },
    Case {
        name: "a loop called in a loop and behind it: in the loop, a tick later",
        plan: CALLED_IN_LOOP,
        calls: &[
            "release -> go 16 79 0",
            "report 2 0 -> go 16 78 0",
            "report 3 1 -> go 15 78 0",
            "report 0 71 -> suspend 14 -1 0",
        ],
    },
    Case {
        name: "a loop called in a loop and behind it: at its last visit, a tick later",
        plan: CALLED_IN_LOOP,
        calls: &[
            "release -> go 16 79 0",
            "report 2 0 -> go 16 78 0",
            "report 3 1 -> go 15 78 0",
            "report 0 70 -> go 14 0 0",
            "report 0 76 -> suspend 11 -1 0",
        ],
    },
    Case {
        name: "a loop called in a loop and behind it: behind it",
        plan: CALLED_IN_LOOP,
        calls: &[
            "release -> go 16 79 0",
            "report 2 0 -> go 16 78 0",
            "report 3 0 -> go 15 79 0",
            "report 0 0 -> go 14 70 0",
            "report 0 0 -> go 11 75 0",
            "report 2 0 -> go 9 85 0",
            "report 5 0 -> go 8 86 0",
            "report 0 66 -> go 7 0 0",
            "report 0 78 -> go 4 0 0",
            "end 100 -> ended 0",
        ],
    },
    Case {
        name: "a loop called in a loop and behind it: left at its first visit",
        plan: CALLED_IN_LOOP,
        calls: &[
            "release -> go 16 79 0",
            "report 2 0 -> go 16 78 0",
            "report 5 0 -> go 8 86 0",
            "report 0 67 -> suspend 7 -1 0",
            "end 67 -> resume 0",
        ],
    },
    // 50 - 26 - 7 - (2 + 4 + 9) - 2, then 50 - 44 - (2 + 4).
    Case {
        name: "a call without points in a function that is called twice",
        plan: SILENT_CALL,
        calls: &[
            "release -> go 8 40 0",
            "report 2 0 -> go 8 39 0",
            "report 1 26 -> go 7 0 0",
            "report 4 41 -> go 3 3 0",
            "report 1 44 -> go 2 0 0",
            "end 50 -> ended 0",
            "release -> go 8 40 0",
            "report 2 0 -> go 8 39 0",
            "report 1 26 -> go 7 0 0",
            "report 4 41 -> go 3 3 0",
            "report 1 45 -> suspend 2 -1 0",
            "end 50 -> resume 0",
        ],
    },
    // 60 - 22 - 13 - (3 + 8 + 11) - 3, with 2 + 6 for the call and 1 + 2 * (4 + 1) for the
    // loop, then 60 - 55 - (3 + 2).
    Case {
        name: "a silent call and a silent loop behind a call",
        plan: SILENCE_BETWEEN,
        calls: &[
            "release -> go 14 43 0",
            "report 2 0 -> go 14 42 0",
            "report 1 22 -> go 13 0 0",
            "report 6 44 -> go 4 8 0",
            "report 1 55 -> go 3 0 0",
            "end 60 -> ended 0",
            "release -> go 14 43 0",
            "report 2 0 -> go 14 42 0",
            "report 1 23 -> suspend 13 -1 0",
        ],
    },
    // The if: 60 - 37 - 6 - (2 + 12) - 3, then 60 - 53 - 2 - 2 - 3. The point in it:
    // 60 - 36 - 5 - (4 + 12) - 3, then 60 - 56 - 4.
    Case {
        name: "an if with one silent part in a function that is called twice",
        plan: IF_CALLED_TWICE,
        calls: &[
            "release -> go 7 50 0",
            "report 2 0 -> go 7 49 0",
            "report 0 36 -> go 6 1 0",
            "report 1 36 -> go 5 0 0",
            "report 4 52 -> go 3 1 0",
            "report 0 53 -> go 2 0 0",
            "report 1 56 -> go 1 0 0",
            "end 60 -> ended 0",
        ],
    },
    Case {
        name: "an if with one silent part in a function that is called twice, a tick later",
        plan: IF_CALLED_TWICE,
        calls: &[
            "release -> go 7 50 0",
            "report 2 0 -> go 7 49 0",
            "report 0 37 -> go 6 0 0",
            "report 4 51 -> go 3 2 0",
            "report 0 54 -> suspend 2 -1 0",
            "report 1 56 -> stay 1 0 0",
            "end 60 -> resume 0",
        ],
    },
];
