//! What the texts of a comparison have met: rulings, numbers of points, and numbers of
//! each width in each field.

use std::collections::{BTreeMap, BTreeSet};
use std::fmt;

use reference::composed::Composed;
use reference::count::Count;
use reference::numbers::figures;
use reference::plan::{self, MOST_COST, MOST_DEADLINE, MOST_LEAVES, MOST_LEVEL};
use reference::rules;
use reference::rulings::{Rulings, ALL_RULINGS};

use super::points::COUNTS;

/// No total, and so no tail and no stretch, passes this.
pub const MOST_TOTAL: u64 = rules::MOST_TOTAL as u64;

/// The fields of a listing's first line, and those of all its lines with the largest
/// number of each.
const TASK: usize = 5;
const FIELDS: [(&str, u64); TASK + 4] = [
    ("total", MOST_TOTAL),
    ("max-load total", MOST_TOTAL),
    ("D", MOST_DEADLINE),
    ("T", MOST_COST),
    ("U", MOST_COST),
    ("point", MOST_LEAVES as u64 - 1),
    ("level", MOST_LEVEL as u64),
    ("tail", MOST_TOTAL),
    ("stretch", MOST_TOTAL),
];

fn digits(number: u64) -> usize {
    number.to_string().len()
}

#[derive(Default)]
pub struct Met {
    rulings: Rulings,
    /// How many points accepted plans have.
    points: BTreeSet<usize>,
    /// Of each field, by the digits of its numbers, the largest.
    largest: [BTreeMap<usize, u64>; FIELDS.len()],
}

impl Met {
    pub fn note(&mut self, text: &[u8]) {
        let plan = plan::read(text, MOST_LEAVES);
        self.rulings.note(plan.as_ref().err().copied());
        let Ok(plan) = plan else {
            return;
        };
        let figures = figures(&Composed::new(&plan));
        self.points.insert(figures.points.len());
        let (task, point) = self.largest.split_at_mut(TASK);
        note_numbers(task, &figures.task);
        for numbers in &figures.points {
            note_numbers(point, numbers);
        }
    }

    /// Whether there is a text for each ruling, for each number of points that pages
    /// turn on, and for each width of each field.
    pub fn check(&self, count: &mut Count) {
        count.holds(self.rulings.met(&ALL_RULINGS, 1), "each answer is met");
        for points in COUNTS {
            let met = self.points.contains(&points);
            count.holds(met, &format!("a plan of {points} points"));
        }
        for ((name, most), largest) in FIELDS.into_iter().zip(&self.largest) {
            for width in 1..=digits(most) {
                let met = largest.contains_key(&width);
                count.holds(met, &format!("{name}: a number of {width} digits"));
            }
            let found = largest.get(&digits(most));
            count.holds(
                found == Some(&most),
                &format!("{name}: {most}, the largest"),
            );
        }
    }
}

fn note_numbers(fields: &mut [BTreeMap<usize, u64>], numbers: &[u64]) {
    for (largest, &number) in fields.iter_mut().zip(numbers) {
        let known = largest.entry(digits(number)).or_default();
        *known = number.max(*known);
    }
}

impl fmt::Display for Met {
    fn fmt(&self, into: &mut fmt::Formatter) -> fmt::Result {
        write!(into, "texts accepted (0) and refused: {}", self.rulings)
    }
}
