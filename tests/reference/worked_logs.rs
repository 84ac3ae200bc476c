//! Logs with what the replay prints for them, worked out by hand. The reference's
//! own checks and the test of the program run them all.

use super::worked::{smallest, EMPTY, PLAN_A, PLAN_B};
use super::worked_last::TWO_CALLS;
use super::worked_returns::{FREE_RETURN, PLAN_A_2, SEVEN_VISITS};
use super::worked_visits::FILTER;

pub struct Case {
    pub name: &'static str,
    pub plan: &'static str,
    pub log: &'static str,
    pub printed: &'static str,
}

pub const CASES: &[&[Case]] = &[ON_PLAN_A, ON_OTHER_PLANS, COMING_BACK, LARGE_NUMBERS, ENDS];

const ON_PLAN_A: &[Case] = &[
    // Every visit takes its max-load cost up to the suspension at 57 (m3); then the
    // switch takes 4 and every visit its isolated cost. 9 + 24 + 24 ticks are shared,
    // 4 + 12 suspended after suspend and 8 after stay.
    Case {
        name: "plan A's worst case",
        plan: PLAN_A,
        log: "release\npoint 0 0\npoint 1 9\npoint 1 33\npoint 1 57\npoint 1 73\nend 81\n",
        printed: "go 49 47 0\ngo 49 38 0\ngo 44 19 0\ngo 32 7 0\nsuspend 20 -5 0\nstay 8 15 0\n\
            resume 0\n57 24 81\n",
    },
    // The refused lines have readings of their own; none of them ends a gap.
    Case {
        name: "refusals 14, 12, 15, 16, 17 and 18 in one release",
        plan: PLAN_A,
        log: "point 0 0\nrelease\nrelease\npoint 2 3\npoint 0 5\npoint 1 4\npoint 0 6\nend 7\n\
            point  1 28\npoint 1 28\nrelease\nrelease 30\nend 27\nend 40\nend 40\n",
        printed: "refused 14\ngo 49 47 0\nrefused 12\nrefused 15\ngo 49 33 0\nrefused 16\n\
            refused 17\nrefused 17\nrefused 18\ngo 44 0 0\nrefused 12\nrefused 18\n\
            refused 16\nended 0\n40 0 40\nrefused 14\n",
    },
    // Suspended in the first release, not in the second, and again in the third,
    // whose end is late: 39 shared, then 50 - 39 and 101 - 50. The fourth is open.
    Case {
        name: "four releases in one log",
        plan: PLAN_A,
        log: "release\npoint 0 40\nend 50\npoint 1 50\nend 60\n\
            release\npoint 0 10\npoint 1 20\nend 30\n\
            release\npoint 0 39\npoint 1 50\nend 101\n\
            release\npoint 0 7\n",
        printed: "go 49 47 0\nsuspend 49 -2 0\nrefused 17\nstay 44 -22 0\nresume 0\n40 20 60\n\
            go 49 47 0\ngo 49 28 0\ngo 44 8 0\nended 0\n30 0 30\n\
            go 49 47 0\nsuspend 49 -1 0\nstay 44 -22 0\nresume 1\n39 62 101\n\
            go 49 47 0\ngo 49 31 0\n",
    },
    // After suspend at 39 the margins of 0 and 11 are those of stay.
    Case {
        name: "a gap after stay is suspended, whatever the margin",
        plan: PLAN_A,
        log: "release\npoint 0 39\npoint 1 39\npoint 1 40\npoint 1 41\nend 100\n",
        printed: "go 49 47 0\nsuspend 49 -1 0\nstay 44 -11 0\nstay 32 0 0\nstay 20 11 0\n\
            resume 0\n39 61 100\n",
    },
    // The last visit goes on at 88, as it takes 4 + 8 ticks up to the end, and not at 89.
    Case {
        name: "the last visit of plan A's loop (m5)",
        plan: PLAN_A,
        log: "release\npoint 0 0\npoint 1 9\npoint 1 33\npoint 1 52\npoint 1 88\nend 100\n\
            release\npoint 0 0\npoint 1 9\npoint 1 33\npoint 1 52\npoint 1 89\nend 100\n",
        printed: "go 49 47 0\ngo 49 38 0\ngo 44 19 0\ngo 32 7 0\ngo 20 0 0\ngo 8 0 0\n\
            ended 0\n100 0 100\n\
            go 49 47 0\ngo 49 38 0\ngo 44 19 0\ngo 32 7 0\ngo 20 0 0\nsuspend 8 -1 0\n\
            resume 0\n89 11 100\n",
    },
];

const ON_OTHER_PLANS: &[Case] = &[
    Case {
        name: "plan B by its else part (m8)",
        plan: PLAN_B,
        log: "release\npoint 1 3\npoint 0 6\npoint 4 16\npoint 0 18\nend 22\n",
        printed: "go 15 180 0\ngo 15 164 0\nrefused 17\ngo 4 173 0\ngo 3 178 0\nended 0\n\
            22 0 22\n",
    },
    // The same point suspends at 11 in the first call and goes on at 20 in the second.
    Case {
        name: "a function called twice",
        plan: TWO_CALLS,
        log: "release\npoint 1 0\npoint 0 10\npoint 2 20\npoint 0 20\nend 30\n\
            release\npoint 1 0\npoint 0 11\npoint 2 20\npoint 0 20\nend 30\n",
        printed: "go 6 19 0\ngo 6 18 0\ngo 5 0 0\ngo 3 1 0\ngo 2 0 0\nended 0\n30 0 30\n\
            go 6 19 0\ngo 6 18 0\nsuspend 5 -1 0\nstay 3 1 0\nstay 2 0 0\nresume 0\n\
            11 19 30\n",
    },
    // The same point suspends at 23 in the first call, where 20 ticks come behind it, and
    // goes on at 53 in the second: 60 - 22 - 11 - 24 - 3 and 60 - 53 - 7.
    Case {
        name: "a filter called twice",
        plan: FILTER,
        log: "release\npoint 1 0\npoint 0 22\npoint 3 46\npoint 0 53\nend 60\n\
            release\npoint 1 0\npoint 0 23\npoint 3 34\npoint 0 53\nend 56\n",
        printed: "go 12 45 0\ngo 12 43 0\ngo 11 0 0\ngo 4 5 0\ngo 3 0 0\nended 0\n60 0 60\n\
            go 12 45 0\ngo 12 43 0\nsuspend 11 -1 0\nstay 4 17 0\nstay 3 0 0\nresume 0\n\
            23 33 56\n",
    },
    // At release 30 - 10 - 20 - 2 is below 0, at the last point 30 - 7 - 9 is not.
    Case {
        name: "suspended from the release on",
        plan: "(task 30 2\n(fun\n(leaf s 5 20)\n(leaf p 5 9)\n)\n)\n",
        log: "release\npoint 1 7\nend 12\n",
        printed: "suspend 10 -2 0\nstay 5 14 0\nresume 0\n0 12 12\n",
    },
    // With two ticks more the release goes on, and 32 - 20 - 13 is below 0.
    Case {
        name: "the gap before the first report is the release's",
        plan: "(task 32 2\n(fun\n(leaf s 5 20)\n(leaf p 5 13)\n)\n)\n",
        log: "release\npoint 1 20\nend 27\n",
        printed: "go 10 0 0\nsuspend 5 -1 0\nresume 0\n20 7 27\n",
    },
    Case {
        name: "unfit (m10)",
        plan: smallest!(9),
        log: "release\nend 5\nrelease\npoint 0 0\nrelease 9\n",
        printed: "refused 13\nrefused 14\nrefused 13\nrefused 14\nrefused 18\n",
    },
    // 10 - 9 at release, with 7 + 3 just within the deadline.
    Case {
        name: "goes on at release (m11)",
        plan: smallest!(10),
        log: "release\nend 10\nrelease\npoint 0 4\nend 11\n",
        printed: "go 7 1 0\nended 0\n10 0 10\ngo 7 1 0\nrefused 15\nended 1\n11 0 11\n",
    },
    // The same with 20 ticks under load: 10 - 20.
    Case {
        name: "suspended at release, and no point comes",
        plan: "(task 10 3\n(fun\n(leaf s 7 20)\n)\n)\n",
        log: "release\nend 10\nrelease\npoint 0 4\nend 11\n",
        printed: "suspend 7 -10 0\nresume 0\n0 10 10\nsuspend 7 -10 0\nrefused 15\nresume 1\n\
            0 11 11\n",
    },
    Case {
        name: "goes on from release to end (m12)",
        plan: smallest!(19),
        log: "release\nend 19\nrelease\nend 20\n",
        printed: "go 7 10 0\nended 0\n19 0 19\ngo 7 10 0\nended 1\n20 0 20\n",
    },
    Case {
        name: "no forms",
        plan: EMPTY,
        log: "release\nend 0\nrelease\nend 1\n",
        printed: "go 0 1 0\nended 0\n0 0 0\ngo 0 1 0\nended 0\n1 0 1\n",
    },
];

/// Edition 2 (02, L7): the gap after a report's resume is shared.
const COMING_BACK: &[Case] = &[
    // As plan A's worst case up to 73, then U takes 3 ticks and the last visit 4 + 8.
    Case {
        name: "plan A's worst case comes back",
        plan: PLAN_A_2,
        log: "release\npoint 0 0\npoint 1 9\npoint 1 33\npoint 1 57\npoint 1 73\nend 88\n",
        printed: "go 49 47 0\ngo 49 38 0\ngo 44 19 0\ngo 32 7 0\nsuspend 20 -5 0\n\
            resume 8 12 0\nended 0\n72 16 88\n",
    },
    // Suspended from 29 to 37 and from 53 to 85; in the second release from 29 to 49, and
    // from 89 to its end.
    Case {
        name: "two stops in each release",
        plan: PLAN_A_2,
        log: "release\npoint 0 0\npoint 1 29\npoint 1 37\npoint 1 53\npoint 1 85\nend 100\n\
            release\npoint 0 0\npoint 1 29\npoint 1 38\npoint 1 49\npoint 1 89\nend 100\n",
        printed: "go 49 47 0\ngo 49 38 0\nsuspend 44 -1 0\nresume 32 0 0\nsuspend 20 -1 0\n\
            resume 8 0 0\nended 0\n60 40 100\n\
            go 49 47 0\ngo 49 38 0\nsuspend 44 -1 0\nstay 32 -1 0\nresume 20 0 0\n\
            suspend 8 -1 0\nresume 0\n69 31 100\n",
    },
    // Suspended from 23 to 25, 31 to 33, 39 to 41 and 53 to 60.
    Case {
        name: "four stops",
        plan: SEVEN_VISITS,
        log: "release\npoint 0 23\npoint 0 25\npoint 0 31\npoint 0 33\npoint 0 39\npoint 0 41\n\
            point 0 53\nend 60\n",
        printed: "go 28 30 0\nsuspend 28 -1 0\nresume 24 0 0\nsuspend 20 -1 0\nresume 16 0 0\n\
            suspend 12 -1 0\nresume 8 0 0\nsuspend 4 -1 0\nresume 0\n47 13 60\n",
    },
    // The log of the gap after stay, with the others back from 40 on: only 39 to 40 is
    // suspended. Refused lines end no gap.
    Case {
        name: "a U of 0, with refused lines behind the return",
        plan: FREE_RETURN,
        log: "release\npoint 0 39\npoint 1 39\npoint 1 40\npoint 0 41\nrelease\nend 30\n\
            point 1 41\nend 100\n",
        printed: "go 49 47 0\nsuspend 49 -1 0\nstay 44 -11 0\nresume 32 0 0\nrefused 17\n\
            refused 12\nrefused 16\ngo 20 11 0\nended 0\n99 1 100\n",
    },
    Case {
        name: "a task line of edition 2 out of range",
        plan: "(task 100 4 1048577\n(fun\n)\n)\n",
        log: "release\nend 0\n",
        printed: "refused 3 1\n",
    },
    Case {
        name: "a task line of four numbers",
        plan: "(task 100 4 3 0\n(fun\n)\n)\n",
        log: "",
        printed: "refused 2 1\n",
    },
];

/// Up to 2^64 - 1, which is 18446744073709551615.
const LARGE_NUMBERS: &[Case] = &[
    Case {
        name: "the largest shared gap",
        plan: PLAN_A,
        log: "release\npoint 0 0\npoint 1 18446744073709551615\nend 18446744073709551615\n",
        printed: "go 49 47 0\ngo 49 38 0\nsuspend 44 -4611686018427387904 1\nresume 1\n\
            18446744073709551615 0 18446744073709551615\n",
    },
    Case {
        name: "a large suspended gap",
        plan: PLAN_A,
        log: "release\npoint 0 39\npoint 1 39\nend 18446744073709551615\n",
        printed: "go 49 47 0\nsuspend 49 -1 0\nstay 44 -11 0\nresume 1\n\
            39 18446744073709551576 18446744073709551615\n",
    },
    // 2^64 is of another form, whatever else could be said of the line.
    Case {
        name: "numbers at 2^64",
        plan: PLAN_A,
        log: "point 0 18446744073709551615\npoint 0 18446744073709551616\n\
            point 18446744073709551616 0\nend 18446744073709551616\nrelease\n\
            point 18446744073709551615 0\npoint 18446744073709551616 0\npoint 0 0\n\
            point 18446744073709551617 9\nend 18446744073709551616\nend 18446744073709551615\n",
        printed: "refused 14\nrefused 18\nrefused 18\nrefused 18\ngo 49 47 0\nrefused 15\n\
            refused 18\ngo 49 38 0\nrefused 18\nrefused 18\nrefused 17\n",
    },
];

/// How a log ends, and plans that are refused.
const ENDS: &[Case] = &[
    Case {
        name: "no lines",
        plan: PLAN_A,
        log: "",
        printed: "",
    },
    Case {
        name: "a last line without a line feed",
        plan: EMPTY,
        log: "release\nend 0\nrelease",
        printed: "go 0 1 0\nended 0\n0 0 0\nrefused 18\n",
    },
    Case {
        name: "blank lines",
        plan: EMPTY,
        log: "\nrelease\n\n\nend 1\n\n",
        printed: "refused 18\ngo 0 1 0\nrefused 18\nrefused 18\nended 0\n1 0 1\nrefused 18\n",
    },
    Case {
        name: "a refused plan",
        plan: "(task 100 4\n(fun\n(leaf p 9 5)\n)\n)\n",
        log: "release\nend 0\n",
        printed: "refused 5 3\n",
    },
    Case {
        name: "a plan with a point that costs nothing",
        plan: "(task 100 4\n(fun\n(leaf s 0 5)\n(loop p 3 0 4\n)\n)\n)\n",
        log: "release\nend 0\n",
        printed: "refused 19 4\n",
    },
    // Alone it takes nothing, under load 5 + 4 + 3 * 4 up to its end; 100 - 21 = 79.
    Case {
        name: "the same plan with a silent leaf that costs nothing",
        plan: "(task 100 4\n(fun\n(leaf s 0 5)\n(loop s 3 0 4\n)\n)\n)\n",
        log: "release\npoint 1 0\nend 9\n",
        printed: "go 0 79 0\nrefused 15\nended 0\n9 0 9\n",
    },
    Case {
        name: "an empty plan",
        plan: "",
        log: "release\nend 0\n",
        printed: "refused 2 1\n",
    },
    Case {
        name: "a plan that is uncalled",
        plan: "(task 9 0\n(fun\n)\n(fun\n)\n)\n",
        log: "",
        printed: "refused 9 0\n",
    },
];
