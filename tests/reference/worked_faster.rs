//! Pairs of sequences of reports worked out by hand (02, L8): two whose second is faster than
//! the first, and two that miss a hypothesis, of which the sentence does not hold.

use super::worked::{PLAN_A, PLAN_B};
use super::worked_returns::PLAN_A_2;

/// Two sequences on a plan, each from a fresh state and written as in the other worked
/// lists.
pub struct WorkedPair {
    pub name: &'static str,
    pub plan: &'static str,
    pub sequences: [&'static [&'static str]; 2],
    /// After how many calls of each the others run.
    pub running: [usize; 2],
    /// Where a hypothesis is missing: the calls in each that report the same point, in the
    /// second with an earlier reading, and after which the others run in the first alone.
    pub broken: Option<[usize; 2]>,
}

pub const PAIRS: &[WorkedPair] = &[
    // A round of the loop takes 4 + 20 in the first, 4 + 17 in the second; while the others
    // run visits 1 to 3 need 44, 32 and 20 with 24 + 4, and visit 4 needs 12 alone.
    WorkedPair {
        name: "plan A's worst case, and with a body that takes 17 for 20",
        plan: PLAN_A,
        sequences: [
            &[
                "release -> go 49 47 0",
                "report 0 0 -> go 49 38 0",
                "report 1 9 -> go 44 19 0",
                "report 1 33 -> go 32 7 0",
                "report 1 57 -> suspend 20 -5 0",
                "report 1 73 -> stay 8 15 0",
            ],
            &[
                "release -> go 49 47 0",
                "report 0 0 -> go 49 38 0",
                "report 1 9 -> go 44 19 0",
                "report 1 30 -> go 32 10 0",
                "report 1 51 -> go 20 1 0",
                "report 1 72 -> go 8 16 0",
            ],
        ],
        running: [4, 6],
        broken: None,
    },
    // Suspended, visits 2 to 4 need 32 and 20 with 24 + 4 + 3, and 12 + 3. At visit 3 the
    // others stay in the first, 100 - 60 - 51, and are suspended again in the second,
    // 100 - 60 - 48.
    WorkedPair {
        name: "the second comes back earlier, stops again, and comes back with the first",
        plan: PLAN_A_2,
        sequences: [
            &[
                "release -> go 49 47 0",
                "report 0 0 -> go 49 38 0",
                "report 1 29 -> suspend 44 -1 0",
                "report 1 38 -> stay 32 -1 0",
                "report 1 60 -> stay 20 -11 0",
                "report 1 76 -> resume 8 9 0",
            ],
            &[
                "release -> go 49 47 0",
                "report 0 0 -> go 49 38 0",
                "report 1 29 -> suspend 44 -1 0",
                "report 1 35 -> resume 32 2 0",
                "report 1 60 -> suspend 20 -8 0",
                "report 1 76 -> resume 8 9 0",
            ],
        ],
        running: [3, 4],
        broken: None,
    },
    // The first passes the else part, whose leaf is silent: at point 4 200 - 189 - 4 - 2 - 5.
    // The second takes the then part: at its point 200 - 186 - 8 - 2 - 5, in the function
    // called there 200 - 187 - 7 - 4 - 5, and at point 4 200 - 188 - 4 - 2 - 5.
    WorkedPair {
        name: "other points: point 4 comes a tick earlier by the other part of the if",
        plan: PLAN_B,
        sequences: [
            &[
                "release -> go 15 180 0",
                "report 1 0 -> go 15 167 0",
                "report 4 189 -> go 4 0 0",
            ],
            &[
                "release -> go 15 180 0",
                "report 1 0 -> go 15 167 0",
                "report 2 186 -> suspend 8 -1 0",
                "report 0 187 -> stay 7 -3 0",
                "report 4 188 -> stay 4 1 0",
            ],
        ],
        running: [3, 2],
        broken: Some([2, 4]),
    },
    // At visit 1 100 - 28 - 44 - 28, and a tick less; at visit 2 100 - 40 - 32 - 28, and a
    // tick more.
    WorkedPair {
        name: "a later reading before: visit 2 comes a tick earlier, visit 1 a tick later",
        plan: PLAN_A,
        sequences: [
            &[
                "release -> go 49 47 0",
                "report 0 0 -> go 49 38 0",
                "report 1 28 -> go 44 0 0",
                "report 1 40 -> go 32 0 0",
            ],
            &[
                "release -> go 49 47 0",
                "report 0 0 -> go 49 38 0",
                "report 1 29 -> suspend 44 -1 0",
                "report 1 39 -> stay 32 1 0",
            ],
        ],
        running: [4, 2],
        broken: Some([3, 3]),
    },
];
