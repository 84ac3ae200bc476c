//! Plans of as many points as fill a page, a few pages or all records, and of one more
//! and one less.

use reference::aimed::{many, task};
use reference::gen::Random;
use reference::plan::{self, Form, Kind, Plan, MOST_COST, MOST_DEADLINE, MOST_LEAVES};

use super::comparison::Comparison;

/// A page has 57 points, and a plan at most 512 leaves.
pub const COUNTS: [usize; 11] = [0, 1, 56, 57, 58, 113, 114, 115, 171, 511, 512];

/// A leaf that costs something, at any number of digits.
fn leaf(random: &mut Random, point: bool) -> Form {
    let mut cost = || 1 + random.next() % 10u64.pow(1 + random.below(6) as u32);
    let isolated = cost();
    Form {
        leaf: 0,
        point,
        isolated,
        loaded: (isolated + cost()).min(MOST_COST),
        kind: Kind::Leaf,
    }
}

/// A plan of so many points with silent leaves anywhere between them, at least one
/// where there is room.
fn mixed(random: &mut Random, mut points: usize) -> Vec<u8> {
    let room = MOST_LEAVES - points;
    let leaves = points + room.min(1 + random.index(room.max(1)));
    let mut forms = Vec::new();
    for left in (1..=leaves).rev() {
        let point = random.index(left) < points;
        points -= usize::from(point);
        forms.push(leaf(random, point));
    }
    let mut plan = Plan {
        deadline: 1 + random.below(MOST_DEADLINE),
        switch: random.below(MOST_COST + 1),
        resume: random.pick(&[None, Some(0), Some(MOST_COST)]),
        functions: vec![forms],
    };
    plan.renumber();
    plan::text(&plan)
}

pub fn compare_all(comparison: &mut Comparison) {
    let mut random = Random::new(82);
    for count in COUNTS {
        let alone = task(&[many("(leaf p 1 1)", count)]);
        comparison.text(&format!("points: {count}"), alone.as_bytes());
        for _ in 0..3 {
            let text = mixed(&mut random, count);
            comparison.text(&format!("points among silent leaves: {count}"), &text);
        }
    }
}
