//! The examples; inputs of every length, whole and in pieces; aimed texts and random
//! ones.

use std::io;
use std::path::Path;

use reference::aimed;
use reference::damage;
use reference::edition::editions;
use reference::gen::{self, Random};
use reference::plan::{self, MOST_BYTES};

use super::comparison::Comparison;

/// Each plan of a folder with what is wanted beside it; gives how many there are.
fn beside(comparison: &mut Comparison, folder: &Path) -> io::Result<usize> {
    let mut count = 0;
    for entry in std::fs::read_dir(folder)? {
        let file = entry?.path();
        if file.extension().is_some_and(|kind| kind == "plan") {
            let text = std::fs::read(&file)?;
            let stored = file.with_extension(comparison.look.ending);
            let wanted = std::fs::read(&stored)?;
            comparison.writes(&file.display().to_string(), &text, &wanted);
            let same = (comparison.look.wanted)(&text).as_bytes() == wanted;
            let what = format!("{} is the reference's", stored.display());
            comparison.count.holds(same, &what);
            count += 1;
        }
    }
    Ok(count)
}

pub fn examples(comparison: &mut Comparison, folder: &Path) {
    let found = beside(comparison, folder);
    let what = format!("examples: {found:?}");
    comparison
        .count
        .holds(found.is_ok_and(|count| count > 0), &what);
}

/// Inputs of every length around the largest, whole and in pieces.
pub fn lengths(comparison: &mut Comparison) {
    comparison.text("no input", b"");
    let plan = aimed::EVERY_FORM.as_bytes();
    for length in [1, plan.len() - 1, plan.len(), 4_096, 65_535] {
        let mut text = plan.to_vec();
        text.resize(length, b'\n');
        comparison.text("an input of another length", &text);
    }
    for length in [MOST_BYTES, MOST_BYTES + 1, MOST_BYTES + 2, 1 << 20] {
        for fill in [b'\n', b' ', b')', 0] {
            let mut text = plan.to_vec();
            text.resize(length, fill);
            comparison.text("an input around the largest", &text);
            comparison.text("an input of one byte", &vec![fill; length]);
        }
    }
    for size in [1, 7, 50] {
        comparison.in_pieces(plan, size);
    }
    for (length, size) in [(MOST_BYTES, 4_096), (MOST_BYTES + 1, 5_000)] {
        let mut text = plan.to_vec();
        text.resize(length, b' ');
        comparison.in_pieces(&text, size);
    }
}

pub fn aimed(comparison: &mut Comparison) {
    for case in aimed::cases() {
        comparison.text(&case.name, &case.text);
    }
}

pub fn random(comparison: &mut Comparison) {
    let mut random = Random::new(81);
    for (round, edition) in editions(400).enumerate() {
        let shape = match round % 8 {
            0 => gen::large_shape(&mut random),
            _ => gen::small_shape(&mut random),
        };
        let valid = plan::text(&gen::valid_plan(&mut random, shape, edition));
        comparison.text("a valid plan", &valid);
        let loose = plan::text(&gen::loose_plan(&mut random, shape, edition));
        comparison.text("a plan that may break rules", &loose);
        let changed = damage::damaged(&mut random, &valid);
        comparison.text("a damaged text", &changed);
    }
}
