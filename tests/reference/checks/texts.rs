//! The reader against the aimed texts and against the printer, and what must
//! hold of its answer on damaged texts.

use reference::aimed;
use reference::crossed;
use reference::damage;
use reference::edition::editions;
use reference::gen::{self, Random};
use reference::plan::{self, read, text, LINE_RULES};
use reference::rulings::{Rulings, ALL_RULINGS};
use reference::two_faults;
use reference::worked::{PLAN_A, PLAN_B};
use reference::worked_returns::PLAN_A_2;

use super::tally::Tally;

/// A plan has one text, so an accepted text is the one its plan prints; a
/// refused line is refused for what stands up to it, and without it the text
/// ends early or was complete.
fn judged(tally: &mut Tally, bytes: &[u8], row: usize) {
    let shown = || {
        format!(
            "row {row}: {}",
            String::from_utf8_lossy(&bytes[..bytes.len().min(300)])
        )
    };
    let (number, line) = match plan::read_lines(bytes, row) {
        Ok(plan) => {
            tally.equal(text(&plan).as_slice(), bytes, || {
                format!("printed again, {}", shown())
            });
            let lines_only = |number: u32| matches!(number, 8..=10);
            let whole = read(bytes, row).map_err(|(number, line)| (lines_only(number), line));
            tally.holds(matches!(whole, Ok(_) | Err((true, 0))), shown);
            return;
        }
        Err(refusal) => refusal,
    };
    tally.equal(read(bytes, row).err(), Some((number, line)), shown);
    if number == 1 {
        tally.equal((bytes.len() > 65_536, line), (true, 0), shown);
        return;
    }
    tally.holds(LINE_RULES.contains(&number) && line > 0, shown);
    let lines: Vec<&[u8]> = bytes.split_inclusive(|&byte| byte == b'\n').collect();
    if line > lines.len() {
        tally.equal((number, line), (2, lines.len() + 1), shown);
        return;
    }
    let through = lines[..line].concat();
    tally.equal(read(&through, row).err(), Some((number, line)), || {
        format!("up to it, {}", shown())
    });
    match plan::read_lines(&lines[..line - 1].concat(), row) {
        Ok(_) => tally.equal(number, 2, || format!("goes on, {}", shown())),
        Err(before) => tally.equal(before, (2, line), || format!("before it, {}", shown())),
    }
}

fn aimed_texts(tally: &mut Tally) {
    let mut rulings = Rulings::default();
    for case in aimed::cases() {
        let found = read(&case.text, case.row).err();
        tally.equal(found, case.refusal, || {
            format!("aimed: {} (row {})", case.name, case.row)
        });
        judged(tally, &case.text, case.row);
        rulings.note(found);
    }
    tally.holds(rulings.met(&ALL_RULINGS, 1), || {
        format!("each rule is met: {rulings}")
    });
}

/// Every two rules of a line are broken by one of the aimed lines, and the first of
/// them is named there; but no line breaks 5 and 19, since no M is below C = 0.
fn pairs_of_rules(tally: &mut Tally) {
    let pairs = (0..LINE_RULES.len()).flat_map(|at| {
        let (first, later) = (LINE_RULES[at], &LINE_RULES[at + 1..]);
        later.iter().map(move |&second| (first, second))
    });
    for (first, second) in pairs {
        let found = [(first, second), (second, first)].map(|(a, b)| two_faults::shows(a, b));
        let wanted = [(first, second) != (5, 19), false];
        tally.equal(found, wanted, || {
            format!("{first} and {second} on one line")
        });
    }
}

fn crossed_lines(tally: &mut Tally) {
    let mut rulings = Rulings::default();
    for case in crossed::cases() {
        // Whole plans may be too long for rule 10; the lines are judged here.
        let found = plan::read_lines(&case.text, case.row).err();
        let what = || format!("crossed: {} (row {})", case.name, case.row);
        tally.equal(found, case.refusal, what);
        judged(tally, &case.text, case.row);
        rulings.note(found);
    }
    let met = rulings.met(&LINE_RULES, 1) && rulings.met(&[0], 1);
    tally.holds(met, || {
        format!("crossed lines meet the rules of a line: {rulings}")
    });
}

/// Points that cost nothing, one at a time, in texts that are accepted without.
fn costless_points(tally: &mut Tally) {
    for base in [PLAN_A, PLAN_B, aimed::EVERY_FORM] {
        for (line, changed) in damage::every_point_costless(base.as_bytes()) {
            let shown = || String::from_utf8_lossy(&changed).into_owned();
            tally.equal(read(&changed, 512).err(), Some((19, line)), shown);
            judged(tally, &changed, 512);
        }
    }
}

fn damaged_texts(tally: &mut Tally) {
    let mut random = Random::new(11);
    for base in [PLAN_A, PLAN_B, PLAN_A_2] {
        let base = base.as_bytes();
        let changed = [
            damage::every_number_at_edges(base),
            damage::every_byte_dropped_or_doubled(base),
            damage::every_line_moved(base),
            damage::every_beginning(base),
        ];
        for changed_text in changed.concat() {
            judged(tally, &changed_text, 512);
        }
    }
    let mut rulings = Rulings::default();
    for (round, edition) in editions(4_000).enumerate() {
        let shape = gen::small_shape(&mut random);
        let plan = match round % 3 {
            0 => gen::loose_plan(&mut random, shape, edition),
            _ => gen::valid_plan(&mut random, shape, edition),
        };
        let whole = text(&plan);
        let changed = damage::damaged(&mut random, &whole);
        let row = random.pick(&[512, 512, 512, 3]);
        judged(tally, &changed, row);
        rulings.note(plan::read_lines(&changed, row).err());
    }
    let met = rulings.met(&[2, 3, 4, 5, 19, 6], 1);
    tally.holds(met, || {
        format!("damage meets the rules of a line but 7: {rulings}")
    });
}

/// Valid plans are read back as they were, in a row of as many records as they
/// have leaves, and refused in a row of one less.
fn round_trips(tally: &mut Tally) {
    let mut random = Random::new(12);
    for (round, edition) in editions(2_000).enumerate() {
        let shape = match round % 10 {
            0 => gen::large_shape(&mut random),
            _ => gen::small_shape(&mut random),
        };
        let plan = gen::valid_plan(&mut random, shape, edition);
        let count = plan.leaves().len();
        let whole = text(&plan);
        let shown = || String::from_utf8_lossy(&whole).into_owned();
        tally.equal(read(&whole, count), Ok(plan.clone()), shown);
        if count > 0 {
            let number = read(&whole, count - 1).err().map(|refusal| refusal.0);
            tally.equal(number, Some(4), shown);
        }
    }
}

pub fn check(tally: &mut Tally) {
    aimed_texts(tally);
    pairs_of_rules(tally);
    crossed_lines(tally);
    costless_points(tally);
    damaged_texts(tally);
    round_trips(tally);
}
