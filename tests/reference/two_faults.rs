//! Lines that break two rules at once, with the one that is to be named: every two
//! of the rules 2, 3, 4, 5, 19, 6 and 7 that one line can break. Rules 5 and 19 are the
//! only two that none can: where C is 0, no M is below it.

use super::aimed::{many, words, Cases, LEAF};

/// Where a line stands. All spots but the first add a fault of their own.
#[derive(Clone, Copy, Debug)]
enum Spot {
    /// In function 1, where function 0 alone can be called.
    Plain,
    /// Directly inside an if, where no form stands: 2.
    InIf,
    /// Behind 512 leaves: 4 for a leaf.
    Full,
    /// Inside 32 loops: 7 for a leaf.
    Deep,
    /// Both of these.
    FullDeep,
    /// Inside 64 open brackets: 7 for what opens one more.
    Bracketed,
    /// Inside 31 loops, where function 0 holds a leaf: 7 for a call of it.
    Calling,
}

use Spot::{Bracketed, Calling, Deep, Full, FullDeep, InIf, Plain};

/// The rule that is named, the other that is broken, and the line. Rule 6 is for calls
/// alone; with 19 each kind of leaf is there that the other rule can meet.
const TABLE: &[(u32, u32, Spot, &str)] = &[
    (2, 3, Plain, "(leaf s 01048577 0)"),
    (2, 3, InIf, "(leaf s 0 1048577)"),
    (2, 4, Full, "(leaf s 0 0"),
    (2, 5, Plain, "(leaf s 2 1"),
    (2, 5, InIf, "(leaf s 2 1)"),
    (2, 19, Plain, "(leaf p 0 0"),
    (2, 19, Plain, "(call p 0 0 0"),
    (2, 19, Plain, "(loop p 1 0 0)"),
    (2, 19, Plain, "(if p 0 0)"),
    (2, 19, InIf, "(leaf p 0 0)"),
    (2, 19, InIf, "(call p 0 0 1)"),
    (2, 19, InIf, "(loop p 1 0 0"),
    (2, 19, InIf, "(if p 0 1"),
    (2, 6, Plain, "(call s 1 0 0"),
    (2, 6, InIf, "(call s 1 0 0)"),
    (2, 7, Deep, "(leaf s 0 0"),
    (2, 7, Bracketed, "(loop s 1 0 0)"),
    (3, 4, Full, "(leaf s 0 1048577)"),
    (3, 5, Plain, "(leaf s 1048577 0)"),
    (3, 19, Plain, "(leaf p 0 1048577)"),
    (3, 19, Plain, "(call p 0 0 1048577)"),
    (3, 19, Plain, "(loop p 0 0 0"),
    (3, 19, Plain, "(loop p 65536 0 1"),
    (3, 19, Plain, "(loop p 1 0 1048577"),
    (3, 19, Plain, "(if p 0 1048577"),
    (3, 6, Plain, "(call s 16 0 0)"),
    (3, 6, Plain, "(call s 1 0 1048577)"),
    (3, 7, Deep, "(leaf s 0 1048577)"),
    (3, 7, Bracketed, "(loop s 0 0 0"),
    (4, 5, Full, "(leaf s 2 1)"),
    (4, 19, Full, "(leaf p 0 0)"),
    (4, 19, Full, "(call p 0 0 1)"),
    (4, 19, Full, "(loop p 1 0 0"),
    (4, 19, Full, "(if p 0 1"),
    (4, 6, Full, "(call s 1 0 0)"),
    (4, 7, FullDeep, "(leaf s 0 0)"),
    (5, 6, Plain, "(call s 1 2 1)"),
    (5, 6, Plain, "(call p 15 1 0)"),
    (5, 7, Deep, "(leaf s 2 1)"),
    (5, 7, Bracketed, "(loop s 1 1 0"),
    (5, 7, Bracketed, "(if p 1 0"),
    (5, 7, Calling, "(call s 0 1 0)"),
    (19, 6, Plain, "(call p 1 0 0)"),
    (19, 6, Plain, "(call p 15 0 1)"),
    (19, 7, Deep, "(leaf p 0 0)"),
    (19, 7, Deep, "(call p 0 0 1)"),
    (19, 7, Deep, "(loop p 1 0 0"),
    (19, 7, Deep, "(if p 0 1"),
    (19, 7, Bracketed, "(loop p 1 0 1"),
    (19, 7, Bracketed, "(if p 0 0"),
    (19, 7, Calling, "(call p 0 0 0)"),
    (6, 7, Deep, "(call s 1 0 0)"),
];

/// The forms of function 0, and those of function 1 before the line.
fn before(spot: Spot) -> (Vec<String>, Vec<String>) {
    let loops = |count: usize| many("(loop s 1 0 0", count);
    match spot {
        Plain => (vec![], vec![]),
        InIf => (vec![], words(&["(if s 0 0"])),
        Full => (vec![], many(LEAF, 512)),
        Deep => (vec![], loops(32)),
        FullDeep => (vec![], [many(LEAF, 480), loops(32)].concat()),
        Bracketed => (vec![], words(&["(if s 0 0", "(then"].repeat(31))),
        Calling => (words(&[LEAF]), loops(31)),
    }
}

pub fn lines(cases: &mut Cases) {
    for &(named, other, spot, line) in TABLE {
        let (called, mut forms) = before(spot);
        // Behind the lines of the task and of both functions.
        let number = 5 + called.len() + forms.len();
        forms.push(line.to_string());
        let name = format!("{named} before {other}: {line} {spot:?}");
        cases.refuse(&name, &[called, forms], named, number);
    }
}

/// Whether some line of these breaks both rules, and the first is named.
pub fn shows(named: u32, other: u32) -> bool {
    TABLE.iter().any(|pair| (pair.0, pair.1) == (named, other))
}
