//! Texts that are written down: those with an answer worked out by hand, and base
//! texts with every number, byte and line changed.

use lent::tally::Tally;
use reference::aimed;
use reference::crossed;
use reference::damage;
use reference::edges;
use reference::plan::{Refusal, MOST_BYTES};
use reference::worked::{PLAN_A, PLAN_B};

use super::with_rows;

/// A text whose answer is known.
pub fn known(tally: &mut Tally, name: &str, text: &[u8], records: usize, refusal: Option<Refusal>) {
    let (_, found) = tally.text(name, text, records);
    tally.holds(found == refusal, || {
        format!("{name}: the answer worked out by hand")
    });
}

fn known_texts(tally: &mut Tally) {
    for case in aimed::cases() {
        known(tally, &case.name, &case.text, case.row, case.refusal);
        with_rows(tally, &case.name, &case.text);
    }
    for case in crossed::cases() {
        known(tally, &case.name, &case.text, case.row, case.refusal);
    }
    for (name, text, refusal) in edges::largest() {
        known(tally, name, &text, 512, refusal);
    }
    with_rows(tally, "no text", b"");
    with_rows(tally, "no forms", b"(task 1 0\n(fun\n)\n)\n");
    known(tally, "many digits", aimed::MANY_DIGITS.as_bytes(), 512, Some((3, 3)));
    with_rows(tally, "plan A", PLAN_A.as_bytes());
    with_rows(tally, "plan B", PLAN_B.as_bytes());
    for bytes in [MOST_BYTES, MOST_BYTES + 1, 2 * MOST_BYTES] {
        with_rows(tally, "a text of line feeds", &vec![b'\n'; bytes]);
    }
}

fn changed_texts(tally: &mut Tally, base: &[u8]) {
    with_rows(tally, "a base text", base);
    let any_byte = (0..base.len()).flat_map(|at| damage::every_byte_at(base, at));
    let costless = damage::every_point_costless(base).into_iter();
    let groups = [
        ("a number at an edge", damage::every_number_at_edges(base)),
        (
            "a byte dropped or doubled",
            damage::every_byte_dropped_or_doubled(base),
        ),
        (
            "a point that costs nothing",
            costless.map(|(_, text)| text).collect(),
        ),
        ("a line moved", damage::every_line_moved(base)),
        ("a beginning", damage::every_beginning(base)),
        ("any byte at a place", any_byte.collect()),
    ];
    for (group, texts) in groups {
        for text in texts {
            tally.text(group, &text, 512);
        }
    }
}

pub fn compare_all(tally: &mut Tally) {
    known_texts(tally);
    for base in [
        aimed::EVERY_FORM,
        aimed::SMALLEST,
        aimed::SMALLEST_2,
        aimed::MANY_DIGITS,
    ] {
        changed_texts(tally, base.as_bytes());
    }
}
