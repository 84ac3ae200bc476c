//! Logs with what is printed for their last report (02, L9), worked out by hand: a line for
//! each leaf of the stretch, then D, elapsed, remaining and what T and U take off. The
//! comments say what is left: the margin. The reference's own checks and the test of the
//! program run them all.

use super::aimed::{many, nest, task, words};
use super::worked::{smallest, EMPTY, PLAN_A, PLAN_B};
use super::worked_last::TWO_CALLS;
use super::worked_logs::Case;
use super::worked_returns::{FREE_RETURN, LARGEST, PLAN_A_2};
use super::worked_visits::{
    CALLED_IN_LOOP, FILTER, IF_BEHIND_CALL, IF_CALLED_TWICE, SILENCE_BETWEEN, TWO_DEPTHS,
};

pub const CASES: &[&[Case]] = &[
    ON_PLAN_A,
    COMING_BACK,
    SHARED_FUNCTIONS,
    TIES_OF_IFS,
    TIES_OF_LOOPS,
    REFUSED,
    ENDS,
];

/// Plan A's loop at its fourth visit, with this reading: its stretch is 4 + 8, and neither
/// remaining nor T counts.
macro_rules! fourth_visit {
    ($name:literal, $reading:literal) => {
        Case {
            name: $name,
            plan: PLAN_A,
            log: concat!(
                "release\npoint 0 0\npoint 1 9\npoint 1 33\npoint 1 52\npoint 1 ",
                $reading,
                "\n"
            ),
            printed: concat!("1 1\n3 1\n100 ", $reading, " 0 0\n"),
        }
    };
}

const ON_PLAN_A: &[Case] = &[
    // 100 - 0 - 49 - 4 - 9: its next point is the loop's condition.
    Case {
        name: "plan A's first point",
        plan: PLAN_A,
        log: "release\npoint 0 0\n",
        printed: "0 1\n100 0 49 4\n",
    },
    // Leaving the loop takes 8 ticks, its body 20: 100 - 28 - 44 - 4 - (4 + 20).
    Case {
        name: "the loop's first visit goes on at 28 (m1, m2)",
        plan: PLAN_A,
        log: "release\npoint 0 0\npoint 1 28\n",
        printed: "1 1\n2 1\n100 28 44 4\n",
    },
    Case {
        name: "the loop's first visit suspends at 29 (m2)",
        plan: PLAN_A,
        log: "release\npoint 0 0\npoint 1 29\n",
        printed: "1 1\n2 1\n100 29 44 4\n",
    },
    // 100 - 33 - 32 - 4 - 24.
    Case {
        name: "the loop's second visit (m1)",
        plan: PLAN_A,
        log: "release\npoint 0 0\npoint 1 9\npoint 1 33\n",
        printed: "1 1\n2 1\n100 33 32 4\n",
    },
    Case {
        name: "the loop's third visit with margin 0 (m1)",
        plan: PLAN_A,
        log: "release\npoint 0 0\npoint 1 9\npoint 1 33\npoint 1 52\n",
        printed: "1 1\n2 1\n100 52 20 4\n",
    },
    // 100 - 57 - 20 - 4 - 24 is -5.
    Case {
        name: "the loop's third visit suspends (m3)",
        plan: PLAN_A,
        log: "release\npoint 0 0\npoint 1 9\npoint 1 33\npoint 1 57\n",
        printed: "1 1\n2 1\n100 57 20 4\n",
    },
    // 100 - 73 - 12: while the others stay suspended nothing more comes off in edition 1.
    Case {
        name: "the loop's last visit stays suspended (m3)",
        plan: PLAN_A,
        log: "release\npoint 0 0\npoint 1 9\npoint 1 33\npoint 1 57\npoint 1 73\nend 81\n",
        printed: "1 1\n3 1\n100 73 0 0\n",
    },
    // 100 - 39 - 44 - 4 - 24 is -11.
    Case {
        name: "the loop's first visit stays suspended",
        plan: PLAN_A,
        log: "release\npoint 0 39\npoint 1 39\n",
        printed: "1 1\n2 1\n100 39 44 4\n",
    },
    fourth_visit!("the loop's last visit at 64", 64),
    fourth_visit!("the loop's last visit at 65", 65),
    fourth_visit!("the loop's last visit at 76", 76),
    fourth_visit!("the loop's last visit at 77", 77),
    fourth_visit!("the loop's last visit goes on at 88 (m5)", 88),
    fourth_visit!("the loop's last visit suspends at 89 (m5)", 89),
    // The margin before its floor is 100 - (2^64 - 1) - 44 - 4 - 24.
    Case {
        name: "the largest reading",
        plan: PLAN_A,
        log: "release\npoint 0 0\npoint 1 18446744073709551615\n",
        printed: "1 1\n2 1\n100 18446744073709551615 44 4\n",
    },
];

/// Edition 2 (02, L7): U comes off where the others were suspended before the report.
const COMING_BACK: &[Case] = &[
    Case {
        name: "U does not come off where the others go on",
        plan: PLAN_A_2,
        log: "release\npoint 0 0\npoint 1 28\n",
        printed: "1 1\n2 1\n100 28 44 4\n",
    },
    Case {
        name: "U does not come off where they are suspended now",
        plan: PLAN_A_2,
        log: "release\npoint 0 0\npoint 1 9\npoint 1 33\npoint 1 57\n",
        printed: "1 1\n2 1\n100 57 20 4\n",
    },
    // 100 - 39 - 44 - (4 + 3) - 24 is -14.
    Case {
        name: "U comes off where they stay suspended",
        plan: PLAN_A_2,
        log: "release\npoint 0 39\npoint 1 39\n",
        printed: "1 1\n2 1\n100 39 44 7\n",
    },
    // 100 - 49 - 20 - (4 + 3) - 24.
    Case {
        name: "U comes off where they come back",
        plan: PLAN_A_2,
        log: "release\npoint 0 39\npoint 1 39\npoint 1 39\npoint 1 49\n",
        printed: "1 1\n2 1\n100 49 20 7\n",
    },
    // 100 - 73 - 3 - 12.
    Case {
        name: "U alone where they come back at the last visit",
        plan: PLAN_A_2,
        log: "release\npoint 0 0\npoint 1 9\npoint 1 33\npoint 1 57\npoint 1 73\nend 88\n",
        printed: "1 1\n3 1\n100 73 0 3\n",
    },
    // 100 - 86 - 3 - 12 is -1.
    Case {
        name: "U alone where they stay suspended at the last visit",
        plan: PLAN_A_2,
        log: "release\npoint 0 39\npoint 1 39\npoint 1 39\npoint 1 50\npoint 1 86\n",
        printed: "1 1\n3 1\n100 86 0 3\n",
    },
    Case {
        name: "nothing where they are back and go on at the last visit",
        plan: PLAN_A_2,
        log: "release\npoint 0 39\npoint 1 39\npoint 1 39\npoint 1 49\npoint 1 88\n",
        printed: "1 1\n3 1\n100 88 0 0\n",
    },
    // 100 - 89 - 12 is -1.
    Case {
        name: "nothing where they are back and suspended again at the last visit",
        plan: PLAN_A_2,
        log: "release\npoint 0 0\npoint 1 29\npoint 1 38\npoint 1 49\npoint 1 89\n",
        printed: "1 1\n3 1\n100 89 0 0\n",
    },
    // 100 - 40 - 32 - 4 - 24.
    Case {
        name: "a U of 0",
        plan: FREE_RETURN,
        log: "release\npoint 0 39\npoint 1 39\npoint 1 40\n",
        printed: "1 1\n2 1\n100 40 32 4\n",
    },
    // 3145730 - 2097153 - 2^20 - 1.
    Case {
        name: "the largest U",
        plan: LARGEST,
        log: "release\npoint 0 1\npoint 2 2097153\n",
        printed: "2 1\n3145730 2097153 0 1048576\n",
    },
];

/// Reports inside a call: what follows it in its caller is in the stretch, up to the next
/// point.
const SHARED_FUNCTIONS: &[Case] = &[
    // Under load the else part takes 10 ticks up to the call behind the if, the then part 0
    // up to its own: 200 - 0 - 15 - 5 - 13.
    Case {
        name: "plan B's if (m7)",
        plan: PLAN_B,
        log: "release\npoint 1 0\n",
        printed: "1 1\n3 1\n200 0 15 5\n",
    },
    Case {
        name: "plan B's first call, by the then part",
        plan: PLAN_B,
        log: "release\npoint 1 0\npoint 2 0\n",
        printed: "2 1\n200 0 8 5\n",
    },
    // 200 - 0 - 7 - 5 - 4.
    Case {
        name: "the point of plan B's function in its first call (m9)",
        plan: PLAN_B,
        log: "release\npoint 1 0\npoint 2 0\npoint 0 0\n",
        printed: "0 1\n200 0 7 5\n",
    },
    Case {
        name: "plan B's second call, by the else part",
        plan: PLAN_B,
        log: "release\npoint 1 0\npoint 4 0\n",
        printed: "4 1\n200 0 4 5\n",
    },
    Case {
        name: "the point of plan B's function in its second call (m8, m9)",
        plan: PLAN_B,
        log: "release\npoint 1 0\npoint 4 0\npoint 0 0\nend 9\n",
        printed: "0 1\n200 0 0 0\n",
    },
    Case {
        name: "the same by the then part",
        plan: PLAN_B,
        log: "release\npoint 1 0\npoint 2 0\npoint 0 0\npoint 4 0\npoint 0 6\n",
        printed: "0 1\n200 6 0 0\n",
    },
    // 60 - 22 - 11 - 3 - (4 + 20).
    Case {
        name: "a filter in its first call",
        plan: FILTER,
        log: "release\npoint 1 0\npoint 0 22\n",
        printed: "0 1\n2 1\n60 22 11 3\n",
    },
    // 60 - 53 - (4 + 3).
    Case {
        name: "a filter in its second call",
        plan: FILTER,
        log: "release\npoint 1 0\npoint 0 22\npoint 3 46\npoint 0 53\n",
        printed: "0 1\n4 1\n60 53 0 0\n",
    },
    // 30 - 11 - 5 - 5 - 10 is -1; the second call is a point.
    Case {
        name: "a function called twice with nothing between",
        plan: TWO_CALLS,
        log: "release\npoint 1 0\npoint 0 11\n",
        printed: "0 1\n30 11 5 5\n",
    },
    // 70 - 40 - 10 - 2 - (3 + 5 + 10).
    Case {
        name: "a function called at two depths: in the deeper",
        plan: TWO_DEPTHS,
        log: "release\npoint 3 0\npoint 1 0\npoint 0 40\n",
        printed: "0 1\n2 1\n4 1\n70 40 10 2\n",
    },
    // 70 - 63 - 2 - 2 - 3.
    Case {
        name: "a function called at two depths: in the other",
        plan: TWO_DEPTHS,
        log: "release\npoint 3 0\npoint 1 0\npoint 0 40\npoint 5 58\npoint 0 63\n",
        printed: "0 1\n70 63 2 2\n",
    },
    // 60 - 31 - 7 - 4 - (2 + 3 + 8 + 5): the else part has its point at once.
    Case {
        name: "an if with one silent part behind a call",
        plan: IF_BEHIND_CALL,
        log: "release\npoint 1 0\npoint 0 31\n",
        printed: "0 1\n2 1\n3 1\n5 1\n60 31 7 4\n",
    },
    // 60 - 36 - 6 - 3 - (2 + 12), and 60 - 54 - 2 - 3 - 2 is -1.
    Case {
        name: "a reported if with one silent part in the first call",
        plan: IF_CALLED_TWICE,
        log: "release\npoint 2 0\npoint 0 36\n",
        printed: "0 1\n3 1\n60 36 6 3\n",
    },
    Case {
        name: "a reported if with one silent part in the second call",
        plan: IF_CALLED_TWICE,
        log: "release\npoint 2 0\npoint 0 36\npoint 4 51\npoint 0 54\n",
        printed: "0 1\n60 54 2 3\n",
    },
    // The body takes 9 ticks, what follows the loop 7, in the other call 20. 100 less 70,
    // 14, 5 and 2 + 9; less 75, 11, 5 and 2 + 7; less 66, 7, 5 and 2 + 20; less 78, 2 + 20.
    Case {
        name: "a loop called in a loop",
        plan: CALLED_IN_LOOP,
        log: "release\npoint 2 0\npoint 3 1\npoint 0 70\n",
        printed: "0 1\n1 1\n100 70 14 5\n",
    },
    Case {
        name: "a loop called in a loop, at its last visit",
        plan: CALLED_IN_LOOP,
        log: "release\npoint 2 0\npoint 3 1\npoint 0 70\npoint 0 75\n",
        printed: "0 1\n4 1\n100 75 11 5\n",
    },
    Case {
        name: "a loop called behind a loop",
        plan: CALLED_IN_LOOP,
        log: "release\npoint 2 0\npoint 5 0\npoint 0 66\n",
        printed: "0 1\n6 1\n100 66 7 5\n",
    },
    Case {
        name: "a loop called behind a loop, at its last visit",
        plan: CALLED_IN_LOOP,
        log: "release\npoint 2 0\npoint 5 0\npoint 0 66\npoint 0 78\n",
        printed: "0 1\n6 1\n100 78 0 0\n",
    },
    // 60 - 22 - 13 - 3 - 22: the silent call takes 2 + 6, the loop 3 visits of 1 and twice 4.
    // The called function's leaf is listed first.
    Case {
        name: "a silent call and a silent loop behind a call",
        plan: SILENCE_BETWEEN,
        log: "release\npoint 2 0\npoint 1 22\n",
        printed: "0 1\n1 1\n3 1\n4 3\n5 2\n60 22 13 3\n",
    },
    // 60 - 55 - (3 + 2).
    Case {
        name: "the same in its second call",
        plan: SILENCE_BETWEEN,
        log: "release\npoint 2 0\npoint 1 22\npoint 6 44\npoint 1 55\n",
        printed: "1 1\n7 1\n60 55 0 0\n",
    },
];

/// An if behind the point 0, with parts of leaves, and a leaf behind it.
macro_rules! choice {
    ($first:literal, $second:literal, $behind:literal) => {
        concat!(
            "(task 50 3\n(fun\n(leaf p 1 1)\n(if s 1 1\n(then\n",
            $first,
            ")\n(else\n",
            $second,
            ")\n)\n",
            $behind,
            ")\n)\n"
        )
    };
}

/// Parts that are equal only with what follows the if: 5 + 2, and 7 up to the point.
const THROUGH_WHAT_FOLLOWS: &str = choice!(
    "(leaf s 1 5)\n",
    "(leaf s 1 7)\n(leaf p 1 9)\n",
    "(leaf s 1 2)\n"
);

/// A function called twice in which an if ties by what follows the first call.
const TIED_BY_CALLER: &str = "(task 40 2\n(fun\n(leaf p 1 1)\n(if s 0 0\n(then\n(leaf s 0 2)\n)\n\
    (else\n(leaf s 0 5)\n(leaf p 1 1)\n)\n)\n)\n(fun\n(call p 0 1 1)\n(leaf s 0 3)\n\
    (call p 0 1 1)\n(leaf s 0 1)\n)\n)\n";

/// Choices whose sums are equal up to the next point or the end: then is taken.
const TIES_OF_IFS: &[Case] = &[
    // 50 - 33 - 5 - 3 - (1 + 1 + 5 + 2).
    Case {
        name: "parts that tie through what follows the if",
        plan: THROUGH_WHAT_FOLLOWS,
        log: "release\npoint 0 33\n",
        printed: "0 1\n1 1\n2 1\n5 1\n50 33 5 3\n",
    },
    Case {
        name: "the point of the else part there",
        plan: THROUGH_WHAT_FOLLOWS,
        log: "release\npoint 0 33\npoint 4 34\n",
        printed: "4 1\n5 1\n50 34 0 0\n",
    },
    // A tick more: 1 + 1 + 8.
    Case {
        name: "an else part that is dearer by a tick",
        plan: choice!(
            "(leaf s 1 5)\n",
            "(leaf s 1 8)\n(leaf p 1 9)\n",
            "(leaf s 1 2)\n"
        ),
        log: "release\npoint 0 33\n",
        printed: "0 1\n1 1\n3 1\n50 33 5 3\n",
    },
    // 7 up to the point of the then part, 5 + 3 by the else part.
    Case {
        name: "an else part that is dearer only by what follows",
        plan: choice!(
            "(leaf s 1 7)\n(leaf p 1 9)\n",
            "(leaf s 1 5)\n",
            "(leaf s 1 3)\n"
        ),
        log: "release\npoint 0 33\n",
        printed: "0 1\n1 1\n4 1\n5 1\n50 33 5 3\n",
    },
    // No point behind it: neither remaining nor T counts.
    Case {
        name: "parts of one leaf each that tie",
        plan: choice!("(leaf s 1 4)\n", "(leaf s 2 4)\n", "(leaf s 1 2)\n"),
        log: "release\npoint 0 9\n",
        printed: "0 1\n1 1\n2 1\n4 1\n50 9 0 0\n",
    },
    Case {
        name: "parts of two leaves and of one that tie",
        plan: choice!("(leaf s 1 1)\n(leaf s 2 3)\n", "(leaf s 2 4)\n", ""),
        log: "release\npoint 0 9\n",
        printed: "0 1\n1 1\n2 1\n3 1\n50 9 0 0\n",
    },
    Case {
        name: "two empty parts",
        plan: choice!("", "", "(leaf s 1 2)\n"),
        log: "release\npoint 0 9\n",
        printed: "0 1\n1 1\n2 1\n50 9 0 0\n",
    },
    Case {
        name: "an empty part and one that takes nothing under load",
        plan: choice!("(leaf s 0 0)\n", "", "(leaf s 1 2)\n"),
        log: "release\npoint 0 9\n",
        printed: "0 1\n1 1\n3 1\n50 9 0 0\n",
    },
    // The outer parts take 4 each, of the inner ones the second is dearer.
    Case {
        name: "an if in the then part of a tie",
        plan: choice!(
            "(if s 0 0\n(then\n(leaf s 0 3)\n)\n(else\n(leaf s 0 4)\n)\n)\n",
            "(leaf s 0 4)\n",
            ""
        ),
        log: "release\npoint 0 9\n",
        printed: "0 1\n1 1\n4 1\n50 9 0 0\n",
    },
    Case {
        name: "a tie in the dearer part",
        plan: choice!(
            "(leaf s 0 3)\n",
            "(if s 0 1\n(then\n(leaf s 0 4)\n)\n(else\n(leaf s 0 4)\n)\n)\n",
            ""
        ),
        log: "release\npoint 0 9\n",
        printed: "0 1\n1 1\n3 1\n4 1\n50 9 0 0\n",
    },
    // 1 + 2 + 3 * (1 + 4 + 2).
    Case {
        name: "a tie in each round of a silent loop",
        plan: "(task 50 3\n(fun\n(leaf p 1 1)\n(loop s 3 1 2\n(if s 1 1\n(then\n(leaf s 1 4)\n)\n\
            (else\n(leaf s 2 4)\n)\n)\n)\n)\n)\n",
        log: "release\npoint 0 9\n",
        printed: "0 1\n1 4\n2 3\n3 3\n50 9 0 0\n",
    },
    Case {
        name: "a reported if whose parts tie",
        plan: "(task 50 3\n(fun\n(if p 1 1\n(then\n(leaf s 1 4)\n)\n(else\n(leaf s 2 4)\n)\n)\n\
            (leaf s 0 1)\n)\n)\n",
        log: "release\npoint 0 9\n",
        printed: "0 1\n1 1\n3 1\n50 9 0 0\n",
    },
    // In the first call 2 + 3 and 5; 40 - 20 - 5 - 2 - (1 + 5).
    Case {
        name: "parts that tie through what follows the call",
        plan: TIED_BY_CALLER,
        log: "release\npoint 5 0\npoint 0 20\n",
        printed: "0 1\n2 1\n6 1\n40 20 5 2\n",
    },
    // In the second 2 + 1 and 5; 40 - 30 - 2 - 2 - (1 + 5).
    Case {
        name: "the same parts in the second call",
        plan: TIED_BY_CALLER,
        log: "release\npoint 5 0\npoint 0 20\npoint 7 25\npoint 0 30\n",
        printed: "0 1\n3 1\n40 30 2 2\n",
    },
];

/// A reported loop with these lines as its body and behind it.
macro_rules! turning {
    ($body:literal, $behind:literal) => {
        concat!(
            "(task 50 2\n(fun\n(loop p 2 1 3\n",
            $body,
            ")\n",
            $behind,
            ")\n)\n"
        )
    };
}

const TIED_LOOP: &str = turning!("(leaf s 1 5)\n", "(leaf s 2 5)\n");

/// A loop in a function called twice, whose body takes what follows the first call.
const LOOP_TIED_BY_CALLER: &str = "(task 40 2\n(fun\n(loop p 1 1 1\n(leaf s 0 6)\n)\n)\n(fun\n\
    (call p 0 1 1)\n(leaf s 0 6)\n(call p 0 1 1)\n(leaf s 0 5)\n)\n)\n";

/// Loops that are left where going round gives no larger sum.
const TIES_OF_LOOPS: &[Case] = &[
    // 50 - 0 - 7 - 2 - (3 + 5).
    Case {
        name: "a loop whose body takes what follows it",
        plan: TIED_LOOP,
        log: "release\npoint 0 0\n",
        printed: "0 1\n2 1\n50 0 7 2\n",
    },
    Case {
        name: "the same at its second visit",
        plan: TIED_LOOP,
        log: "release\npoint 0 0\npoint 0 8\n",
        printed: "0 1\n2 1\n50 8 5 2\n",
    },
    Case {
        name: "the same at its last visit",
        plan: TIED_LOOP,
        log: "release\npoint 0 0\npoint 0 8\npoint 0 16\n",
        printed: "0 1\n2 1\n50 16 0 0\n",
    },
    Case {
        name: "a loop whose body takes a tick more",
        plan: turning!("(leaf s 1 6)\n", "(leaf s 2 5)\n"),
        log: "release\npoint 0 0\n",
        printed: "0 1\n1 1\n50 0 7 2\n",
    },
    Case {
        name: "a loop whose body takes a tick less",
        plan: turning!("(leaf s 1 4)\n", "(leaf s 2 5)\n"),
        log: "release\npoint 0 0\n",
        printed: "0 1\n2 1\n50 0 7 2\n",
    },
    Case {
        name: "a loop with a point in its body, before which it takes what follows it",
        plan: turning!(
            "(leaf s 1 2)\n(leaf s 0 3)\n(leaf p 1 9)\n",
            "(leaf s 2 5)\n"
        ),
        log: "release\npoint 0 0\n",
        printed: "0 1\n4 1\n50 0 9 2\n",
    },
    // 50 - 0 - 3 - 2 - 3.
    Case {
        name: "a reported loop with an empty body",
        plan: turning!("", ""),
        log: "release\npoint 0 0\n",
        printed: "0 1\n50 0 3 2\n",
    },
    Case {
        name: "a reported loop whose body takes nothing under load",
        plan: turning!("(loop s 2 0 0\n(leaf s 0 0)\n)\n", "(leaf s 0 0)\n"),
        log: "release\npoint 0 0\npoint 0 4\n",
        printed: "0 1\n50 4 2 2\n",
    },
    // The inner loop takes nothing; the round takes 4.
    Case {
        name: "a loop that takes nothing in the body of another",
        plan: turning!("(loop s 2 0 0\n(leaf s 0 0)\n)\n(leaf s 0 4)\n", ""),
        log: "release\npoint 0 0\n",
        printed: "0 1\n3 1\n50 0 3 2\n",
    },
    // In the first call 6 and 6; 40 - 3 - 5 - 2 - 7.
    Case {
        name: "a loop whose body takes what follows its call",
        plan: LOOP_TIED_BY_CALLER,
        log: "release\npoint 2 0\npoint 0 3\n",
        printed: "0 1\n3 1\n40 3 5 2\n",
    },
    // In the second 6 and 5; 40 - 10 - 2 - 2 - 7.
    Case {
        name: "the same loop in its second call",
        plan: LOOP_TIED_BY_CALLER,
        log: "release\npoint 2 0\npoint 0 3\npoint 4 9\npoint 0 10\n",
        printed: "0 1\n1 1\n40 10 2 2\n",
    },
    // 4 visits of 1 and 3 of the inner loop, which takes nothing and is left at once.
    Case {
        name: "a silent loop that takes nothing in one that does",
        plan: "(task 50 2\n(fun\n(leaf p 1 1)\n(loop s 3 1 1\n(loop s 65535 0 0\n(leaf s 0 0)\n)\n\
            )\n(leaf s 1 2)\n)\n)\n",
        log: "release\npoint 0 0\n",
        printed: "0 1\n1 4\n4 1\n50 0 0 0\n",
    },
    // 65,536 visits of the outer one, 65,535 * 65,536 of the inner one: together 2^32.
    Case {
        name: "two silent loops of most rounds",
        plan: "(task 50 2\n(fun\n(leaf p 1 1)\n(loop s 65535 0 1\n(loop s 65535 0 1\n)\n)\n)\n)\n",
        log: "release\npoint 0 0\n",
        printed: "0 1\n1 65536\n2 4294901760\n50 0 0 0\n",
    },
    // 65,535 * 65,535 * 200.
    Case {
        name: "a leaf in three silent loops",
        plan: "(task 50 2\n(fun\n(leaf p 1 1)\n(loop s 65535 0 0\n(loop s 65535 0 0\n\
            (loop s 200 0 0\n(leaf s 0 1)\n)\n)\n)\n)\n)\n",
        log: "release\npoint 0 0\n",
        printed: "0 1\n4 858967245000\n50 0 0 0\n",
    },
];

/// Reports that are not accepted: what the replay prints for them, and nothing else.
const REFUSED: &[Case] = &[
    Case {
        name: "a report without a release",
        plan: PLAN_A,
        log: "point 0 0\n",
        printed: "refused 14\n",
    },
    Case {
        name: "a report behind an end",
        plan: PLAN_A,
        log: "release\npoint 0 0\npoint 1 28\nend 40\npoint 1 40\n",
        printed: "refused 14\n",
    },
    Case {
        name: "a report behind a release that is refused by 13 (m10)",
        plan: smallest!(9),
        log: "release\npoint 0 0\n",
        printed: "refused 14\n",
    },
    Case {
        name: "a report of a silent leaf",
        plan: PLAN_A,
        log: "release\npoint 0 0\npoint 2 9\n",
        printed: "refused 15\n",
    },
    Case {
        name: "a refused report behind an accepted one, and an end",
        plan: PLAN_A,
        log: "release\npoint 0 0\npoint 3 9\nend 50\n",
        printed: "refused 15\n",
    },
    Case {
        name: "a report of no leaf, with an earlier reading",
        plan: PLAN_A,
        log: "release\npoint 0 5\npoint 4 1\n",
        printed: "refused 15\n",
    },
    Case {
        name: "a report of the largest number",
        plan: PLAN_A,
        log: "release\npoint 18446744073709551615 18446744073709551615\n",
        printed: "refused 15\n",
    },
    Case {
        name: "the leaf of the smallest plan",
        plan: smallest!(10),
        log: "release\npoint 0 4\nend 11\n",
        printed: "refused 15\n",
    },
    Case {
        name: "a plan with no forms",
        plan: EMPTY,
        log: "release\npoint 0 0\n",
        printed: "refused 15\n",
    },
    Case {
        name: "an earlier reading, of a point that cannot come next",
        plan: PLAN_A,
        log: "release\npoint 0 5\npoint 0 4\n",
        printed: "refused 16\n",
    },
    Case {
        name: "an earlier reading",
        plan: PLAN_A,
        log: "release\npoint 0 0\npoint 1 28\npoint 1 27\n",
        printed: "refused 16\n",
    },
    Case {
        name: "a fifth visit (m4)",
        plan: PLAN_A,
        log: concat!(
            "release\npoint 0 0\npoint 1 9\npoint 1 33\npoint 1 52\npoint 1 76\n",
            "point 1 76\n"
        ),
        printed: "refused 17\n",
    },
    Case {
        name: "the loop before the first point",
        plan: PLAN_A,
        log: "release\npoint 1 0\n",
        printed: "refused 17\n",
    },
    Case {
        name: "plan B's function before its call (m8)",
        plan: PLAN_B,
        log: "release\npoint 1 0\npoint 0 0\n",
        printed: "refused 17\n",
    },
    Case {
        name: "a report of a plan of edition 2 that is refused",
        plan: PLAN_A_2,
        log: "release\npoint 0 39\npoint 1 39\npoint 0 40\n",
        printed: "refused 17\n",
    },
];

/// Which line is the last report, and what leads to its state.
const ENDS: &[Case] = &[
    Case {
        name: "no lines",
        plan: PLAN_A,
        log: "",
        printed: "",
    },
    Case {
        name: "no report",
        plan: PLAN_A,
        log: "release\nend 0\nrelease\n\nend 5\n",
        printed: "",
    },
    Case {
        name: "no report, D 18 (m11)",
        plan: smallest!(18),
        log: "release\nend 18\n",
        printed: "",
    },
    Case {
        name: "no report, D 19 (m12)",
        plan: smallest!(19),
        log: "release\nend 20\n",
        printed: "",
    },
    Case {
        name: "a last line that is broken off",
        plan: PLAN_A,
        log: "release\npoint 0 0\npoint 1",
        printed: "0 1\n100 0 49 4\n",
    },
    Case {
        name: "a last line without its line feed",
        plan: PLAN_A,
        log: "release\npoint 0 0\npoint 1 28",
        printed: "0 1\n100 0 49 4\n",
    },
    Case {
        name: "broken reports alone",
        plan: PLAN_A,
        log: "release\npoint 0\npoint  0 0\npoint 00 0\npoint 0 0 0\n point 0 0\npoint 0 0 \n",
        printed: "",
    },
    Case {
        name: "broken reports behind the last one",
        plan: PLAN_A,
        log: "release\npoint 0 0\npoint 1 28\npoint 1\npoint 1 029\nPoint 1 29\npoint 1 29\r\n\n",
        printed: "1 1\n2 1\n100 28 44 4\n",
    },
    Case {
        name: "a report of 2^64 behind the last one",
        plan: PLAN_A,
        log: "release\npoint 0 0\npoint 1 28\npoint 1 18446744073709551616\n\
            point 18446744073709551616 29\n",
        printed: "1 1\n2 1\n100 28 44 4\n",
    },
    Case {
        name: "an end behind the last report",
        plan: PLAN_A,
        log: "release\npoint 0 0\npoint 1 28\nend 40\n",
        printed: "1 1\n2 1\n100 28 44 4\n",
    },
    Case {
        name: "an end and a release behind the last report",
        plan: PLAN_A,
        log: "release\npoint 0 0\npoint 1 28\nend 40\nrelease\n",
        printed: "1 1\n2 1\n100 28 44 4\n",
    },
    Case {
        name: "refused lines behind the last report",
        plan: PLAN_A,
        log: "release\npoint 0 0\npoint 1 28\nrelease\nend 20\nend\n",
        printed: "1 1\n2 1\n100 28 44 4\n",
    },
    Case {
        name: "a report of the second release",
        plan: PLAN_A,
        log: "release\npoint 0 39\npoint 1 39\nend 100\nrelease\npoint 0 5\n",
        printed: "0 1\n100 5 49 4\n",
    },
    // Suspended in the first release, not before this report in the second.
    Case {
        name: "a report of the second release in edition 2",
        plan: PLAN_A_2,
        log: "release\npoint 0 39\npoint 1 39\nend 100\nrelease\npoint 0 39\n",
        printed: "0 1\n100 39 49 4\n",
    },
    Case {
        name: "refused lines before the last report",
        plan: PLAN_A,
        log: "end 5\npoint 0 7\nrelease\npoint 1 5\nrelease\npoint 2 5\npoint 0 0\npoint 0 3\n\
            end 50\npoint 1\n\npoint 1 28\n",
        printed: "1 1\n2 1\n100 28 44 4\n",
    },
    Case {
        name: "a refused plan",
        plan: "(task 100 4\n(fun\n(leaf p 9 5)\n)\n)\n",
        log: "release\npoint 0 0\n",
        printed: "refused 5 3\n",
    },
    Case {
        name: "a refused plan and an empty log",
        plan: "(task 9 0\n(fun\n)\n(fun\n)\n)\n",
        log: "",
        printed: "refused 9 0\n",
    },
    Case {
        name: "a plan with a point that costs nothing",
        plan: "(task 100 4\n(fun\n(leaf s 0 5)\n(loop p 3 0 4\n)\n)\n)\n",
        log: "release\npoint 1 0\n",
        printed: "refused 19 4\n",
    },
];

/// A case whose plan is made.
pub struct Built {
    pub name: &'static str,
    pub plan: String,
    pub log: String,
    pub printed: String,
}

/// 30 calls of each function by the next, from the first one, of these lines, to the 15th;
/// this line more at the end of the 8th.
fn thirty_calls(first: &[&str], eighth: &[&str]) -> Vec<Vec<String>> {
    let mut functions = vec![words(first)];
    for before in 0..14 {
        let mut calls = many(&format!("(call s {before} 0 0)"), 30);
        if before == 6 {
            calls.extend(words(eighth));
        }
        functions.push(calls);
    }
    functions
}

/// Plans of 16 functions, the last with a report of its first leaf and these lines behind.
/// No further point can come, and D is 2^40.
fn built(
    name: &'static str,
    mut functions: Vec<Vec<String>>,
    last: &[String],
    point: usize,
    leaves: &str,
) -> Built {
    functions.push([&words(&["(leaf p 1 1)"]), last].concat());
    Built {
        name,
        plan: task(&functions),
        log: format!("release\npoint {point} 7\n"),
        printed: format!("{leaves}1099511627776 7 0 0\n"),
    }
}

/// Plans whose leaves are visited more often than 64 bits can count, if going round were
/// taken on a tie or as they stand; what is listed stays below 2^40.
pub fn most_visits() -> Vec<Built> {
    let calls = many("(call s 14 0 0)", 30);
    let in_loop = words(&["(loop s 65535 0 1", "(call s 14 0 0)", ")"]);
    let free = nest(&["(loop s 65535 0 0"], 31, &["(leaf s 0 0)"], &[")"]);
    // The first leaf 2^25 times, and each function calls the one before twice.
    let first = [
        "(loop s 32 0 0",
        "(loop s 1024 0 0",
        "(loop s 1024 0 0",
        "(leaf s 0 1)",
        ")",
        ")",
        ")",
    ];
    let mut doubled = vec![words(&first)];
    doubled.extend((0..14).map(|before| many(&format!("(call s {before} 0 0)"), 2)));
    let each: Vec<String> = (0..15).map(|of| format!("(call s {of} 0 0)")).collect();
    let round = ["(loop s 65535 0 0", "(leaf s 0 0)", ")"];
    vec![
        Built {
            name: "31 silent loops that take nothing",
            plan: task(&[[words(&["(leaf p 1 1)"]), free, words(&["(leaf s 0 6)"])].concat()]),
            log: "release\npoint 0 7\n".to_string(),
            printed: "0 1\n33 1\n1099511627776 7 0 0\n".to_string(),
        },
        // The first leaf 30^15 times.
        built(
            "calls of calls that take nothing",
            thirty_calls(&["(leaf s 0 0)"], &[]),
            &calls,
            421,
            "421 1\n",
        ),
        built(
            "calls of calls of a loop that takes nothing",
            thirty_calls(&round, &[]),
            &calls,
            422,
            "422 1\n",
        ),
        // The leaf at the end of the 8th function 30^8 times.
        built(
            "calls of calls, one leaf of which takes a tick",
            thirty_calls(&["(leaf s 0 0)"], &["(leaf s 0 1)"]),
            &calls,
            422,
            "211 656100000000\n422 1\n",
        ),
        built(
            "calls of calls that take nothing in a loop that does",
            thirty_calls(&["(leaf s 0 0)"], &[]),
            &in_loop,
            421,
            "421 1\n422 65536\n",
        ),
        // 2^25 + 2^26 + .. + 2^39.
        built(
            "a leaf visited 2^40 - 2^25 times",
            doubled,
            &each,
            32,
            "3 1099478073344\n32 1\n",
        ),
    ]
}
