//! The built programs that print a plan against the reference: for every text on
//! standard input the table program writes the reference's listing or refusal, the
//! sheet program its sheet or the same refusal, byte for byte, nothing else, and they
//! end well. The numbers in the columns of a sheet are those of the listing. The
//! examples have listings worked out by hand, and sheets with the numbers of these.

mod columns;
mod comparison;
mod met;
mod points;
mod texts;
mod widths;

use std::path::{Path, PathBuf};

use reference::count::{self, Count, Part};
use reference::{numbers, sheet};

use comparison::{Comparison, Look};

struct Programs {
    tables: PathBuf,
    sheet: PathBuf,
    /// The folder of the examples.
    plans: PathBuf,
    count: Count,
}

/// Everything that the table program writes.
const LISTING: Look = Look {
    seen: |output| Ok(output.to_vec()),
    wanted: numbers::printed,
    ending: "listing",
};

/// Everything that the sheet program writes.
const SHEET: Look = Look {
    seen: |output| Ok(output.to_vec()),
    wanted: sheet::printed,
    ending: "sheet",
};

/// The listing that stands in the columns of a sheet.
const COLUMNS: Look = Look {
    seen: columns::listing,
    wanted: numbers::printed,
    ending: "listing",
};

const PARTS: &[Part<Programs>] = &[
    ("tables", |all| {
        compare_all(&all.tables, LISTING, &all.plans, &mut all.count)
    }),
    ("sheet", |all| {
        compare_all(&all.sheet, SHEET, &all.plans, &mut all.count)
    }),
    ("columns", |all| {
        compare_all(&all.sheet, COLUMNS, &all.plans, &mut all.count)
    }),
];

/// Every text of the test, for one program and one look at what it writes.
fn compare_all(program: &Path, look: Look, plans: &Path, count: &mut Count) {
    let mut comparison = Comparison::new(program, look, count);
    texts::examples(&mut comparison, plans);
    texts::lengths(&mut comparison);
    texts::aimed(&mut comparison);
    points::compare_all(&mut comparison);
    widths::compare_all(&mut comparison);
    texts::random(&mut comparison);
    comparison.finish();
}

/// The first words are the table program, the sheet program and the folder of the
/// examples.
fn main() {
    let mut words = std::env::args().skip(1);
    let mut path = || PathBuf::from(words.next().expect("paths of the programs and the plans"));
    let (tables, sheet, plans) = (path(), path(), path());
    let programs = Programs {
        tables,
        sheet,
        plans,
        count: Count::new(words),
    };
    count::run(programs, PARTS, |programs| &programs.count)
}
