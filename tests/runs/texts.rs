//! Texts that are refused by every rule, and those at its edge that are accepted; inputs of
//! every length, whole and in pieces; damaged ones.

use reference::aimed;
use reference::damage;
use reference::edition::editions;
use reference::gen::{self, Random};
use reference::plan::{self, MOST_BYTES, MOST_LEAVES};
use reference::rulings::{Rulings, ALL_RULINGS};
use reference::worked::{EMPTY, PLAN_A};

use super::comparison::Comparison;

/// Damaged plans of edition 1.
const DAMAGED: usize = 300;

/// Inputs of every length around the largest. What is behind a plan refuses it.
fn lengths(comparison: &mut Comparison) {
    let plan = PLAN_A.as_bytes();
    for length in [0, 1, plan.len() - 1, plan.len(), 4_096, 65_535] {
        let mut text = plan.to_vec();
        text.resize(length, b'\n');
        comparison.text("an input of another length", &text);
    }
    for length in [MOST_BYTES, MOST_BYTES + 1, MOST_BYTES + 2, 1 << 20] {
        for fill in [b'\n', b' ', b')', 0] {
            let mut text = plan.to_vec();
            text.resize(length, fill);
            comparison.text("an input around the largest", &text);
            comparison.text("an input of one byte", &vec![fill; length]);
        }
    }
}

fn pieces(comparison: &mut Comparison) {
    for text in [PLAN_A, EMPTY] {
        for size in [1, 7, 50] {
            comparison.in_pieces(text.as_bytes(), size);
        }
    }
    for (length, size) in [(MOST_BYTES, 4_096), (MOST_BYTES + 1, 5_000)] {
        let mut text = PLAN_A.as_bytes().to_vec();
        text.resize(length, b' ');
        comparison.in_pieces(&text, size);
    }
}

fn aimed(comparison: &mut Comparison) {
    let mut rulings = Rulings::default();
    for case in aimed::cases() {
        rulings.note(plan::read(&case.text, MOST_LEAVES).err());
        comparison.text(&case.name, &case.text);
    }
    println!("texts accepted (0) and refused: {rulings}");
    let met = rulings.met(&ALL_RULINGS, 1);
    comparison.count.holds(met, "each answer is met");
}

fn damaged(comparison: &mut Comparison) {
    let mut random = Random::new(301);
    for edition in editions(DAMAGED) {
        let shape = gen::small_shape(&mut random);
        let loose = plan::text(&gen::loose_plan(&mut random, shape, edition));
        comparison.text("a plan that may break rules", &loose);
        let changed = damage::damaged(&mut random, &loose);
        comparison.text("a damaged text", &changed);
        let deep = gen::deep_text(&mut random);
        comparison.text("a plan of many brackets and levels", &deep);
    }
}

pub fn compare_all(comparison: &mut Comparison) {
    lengths(comparison);
    pieces(comparison);
    aimed(comparison);
    damaged(comparison);
}
