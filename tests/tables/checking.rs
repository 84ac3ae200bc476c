//! Calls on tables of accepted plans, on the same with numbers changed, cut off or
//! added, and on those of plans that break a rule. The reference decides what is
//! right: a changed number can make the table of another accepted plan.

use lent::calls::Call;
use lent::law;
use lent::state::{State, LEVELS};
use lent::tally::Tally;
use reference::composed::Composed;
use reference::costless::{self, Costless};
use reference::edges;
use reference::edition::{editions, Edition};
use reference::gen::{self, Random};
use reference::plan::{self, Plan, MOST_COST, MOST_LEAVES};
use reference::rulings::Rulings;
use reference::table::{
    self, Finding, Table, COLUMNS, EDITION, FUNCTIONS, LEAVES, PARTS, RESUMING, TOTAL,
};

use super::broken;

/// Makes each call on a table, on a fresh state or on the one that a release on
/// this table leaves.
fn judge(tally: &mut Tally, group: &str, table: &Table) -> Finding {
    let finding = table::finding(table);
    let plan = table::plan_of(table).filter(|_| finding == Finding::Good);
    let mut times = [0; LEVELS];
    times[0] = table.head[TOTAL];
    for call in [Call::Release, Call::Report(0, 0), Call::End(0)] {
        let state = match tally.random.chance(50) {
            true => State::fresh(),
            false => State::released(&times, tally.random.chance(50)),
        };
        let wanted = law::on(plan.as_ref(), &state, call);
        tally.call(group, table, &state, call, &wanted);
    }
    finding
}

/// The same on a table that is known to be good.
fn judge_good(tally: &mut Tally, group: &str, table: &Table) {
    let finding = judge(tally, group, table);
    tally.holds(finding == Finding::Good, || format!("{group} is good"));
}

fn of_plan(plan: &Plan) -> Table {
    table::table(&Composed::new(plan))
}

fn small_table(random: &mut Random, edition: Edition) -> Table {
    of_plan(&gen::small_plan(random, edition))
}

/// One number set to others.
fn change_number(tally: &mut Tally, table: &mut Table, at: usize) {
    let old = *table.number(at);
    let others = tally.random.others(old);
    for new in others.into_iter().filter(|&new| new != old) {
        *table.number(at) = new;
        let group = format!("{} {new} in place of {old}", table.name(at));
        judge(tally, &group, table);
    }
    *table.number(at) = old;
}

/// Every number of small tables, and some of large ones.
pub fn single_numbers(tally: &mut Tally) {
    let mut random = Random::new(71);
    for edition in editions(400) {
        let mut table = small_table(&mut random, edition);
        judge_good(tally, "an accepted plan's table", &table);
        for at in 0..table.count() {
            change_number(tally, &mut table, at);
        }
    }
    let large = edges::largest().into_iter();
    let large = large.filter_map(|(_, text, _)| plan::read(&text, MOST_LEAVES).ok());
    for plan in large {
        let mut table = of_plan(&plan);
        judge_good(tally, "a large plan's table", &table);
        for _ in 0..60 {
            let part = random.index(PARTS);
            let at = table.place(&mut random, part);
            change_number(tally, &mut table, at.expect("a leaf"));
        }
    }
}

/// Changes a number by little, sets it to a small one, or swaps it with another of
/// its part.
fn change_some(random: &mut Random, table: &mut Table) {
    let part = random.pick(&[0, 0, 0, 1, 2, 3, 4]);
    let places = (table.place(random, part), table.place(random, part));
    let (Some(at), Some(other)) = places else {
        return;
    };
    let number = *table.number(at);
    let new = match random.below(4) {
        0 => number.wrapping_add(1),
        1 => number.wrapping_sub(1),
        2 => std::mem::replace(table.number(other), number),
        _ => random.below(4),
    };
    *table.number(at) = new;
}

pub fn several_numbers(tally: &mut Tally) {
    let mut random = Random::new(72);
    for edition in editions(1_500) {
        let table = small_table(&mut random, edition);
        for _ in 0..12 {
            let mut changed = table.clone();
            for _ in 0..2 + random.index(3) {
                change_some(&mut random, &mut changed);
            }
            judge(tally, "several numbers changed", &changed);
        }
    }
}

/// One part of a table as another one has it.
pub fn mixed_tables(tally: &mut Tally) {
    let mut random = Random::new(73);
    for edition in editions(1_000) {
        let (one, other) = (
            small_table(&mut random, edition),
            small_table(&mut random, edition),
        );
        for part in 0..PARTS {
            let mut mixed = one.clone();
            match COLUMNS.get(part) {
                None => mixed.head = other.head,
                Some(columns) => {
                    for (mixed, other) in mixed.row.iter_mut().zip(&other.row) {
                        mixed[columns.clone()].copy_from_slice(&other[columns.clone()]);
                    }
                }
            }
            judge(tally, "parts of two tables", &mixed);
        }
    }
}

/// Rows longer than the plan needs, up to memory for most leaves and beyond it.
fn longer_rows(tally: &mut Tally) {
    let mut random = Random::new(74);
    for edition in editions(300) {
        let mut table = small_table(&mut random, edition);
        let more = random.pick(&[0, 1, 7, 8, 100, 9 * MOST_LEAVES]);
        let behind = (0..more).map(|_| std::array::from_fn(|_| random.next()));
        table.row.extend(behind);
        judge_good(tally, "a table in a longer row", &table);
        table.head[LEAVES] += 1;
        judge(tally, "a longer row, a leaf more", &table);
    }
}

fn shorter_rows(tally: &mut Tally) {
    let mut random = Random::new(75);
    for edition in editions(1_200) {
        let table = small_table(&mut random, edition);
        let records = table.row.len();
        for cut in [1, 2, 8, 9, records] {
            let mut shorter = table.clone();
            shorter.row.truncate(records.saturating_sub(cut));
            judge(tally, "a row cut off", &shorter);
        }
    }
}

/// Numbers of leaves and functions that the row does not have.
fn wrong_counts(tally: &mut Tally) {
    let mut random = Random::new(77);
    for edition in editions(300) {
        let table = small_table(&mut random, edition);
        for (at, number) in [
            (LEAVES, 512),
            (LEAVES, 513),
            (LEAVES, 1 << 61),
            (LEAVES, u64::MAX),
            (FUNCTIONS, 0),
            (FUNCTIONS, 16),
            (FUNCTIONS, 17),
            (FUNCTIONS, 1 << 63),
        ] {
            let mut changed = table.clone();
            changed.head[at] = number;
            judge(tally, "leaves or functions that are not there", &changed);
        }
    }
}

/// Other editions, and each with a U that it does not have (02, L7). Where U is 0 both
/// editions have such a table.
pub fn other_editions(tally: &mut Tally) {
    let mut random = Random::new(79);
    for edition in editions(300) {
        let mut table = small_table(&mut random, edition);
        for number in [0, 1, 2, 3, 257, 258, 1 << 32 | 2, u64::MAX] {
            for resume in [0, 1, MOST_COST, MOST_COST + 1, 1 << 32, u64::MAX] {
                (table.head[EDITION], table.head[RESUMING]) = (number, resume);
                let group = format!("edition {number} with U {resume}");
                let finding = judge(tally, &group, &table);
                let good = (number, resume) == (1, 0) || number == 2 && resume <= MOST_COST;
                tally.holds((finding == Finding::Good) == good, || group.clone());
            }
        }
    }
}

pub fn rows_and_counts(tally: &mut Tally) {
    longer_rows(tally);
    shorter_rows(tally);
    wrong_counts(tally);
}

/// Plans that break one rule, with numbers that are right but for that.
pub fn broken_rules(tally: &mut Tally) {
    let mut random = Random::new(76);
    let mut broken = Rulings::default();
    for table in broken::tables(&mut random) {
        let finding = judge(tally, "a plan that may break a rule", &table);
        if let Finding::Refused(number) = finding {
            broken.note(Some((number, 0)));
        }
    }
    println!("  tables bad for one rule alone: {broken}");
    let met = broken.met(&[3, 4, 5, 6, 7, 8, 9, 10, 19], 1);
    tally.holds(met, || {
        "each of the rules 3 to 10 and 19 alone makes a table bad".to_string()
    });
}

/// Plans with a point that costs nothing, in every kind of leaf: no call takes their
/// tables, which are right but for that. With the leaf silent, each takes them.
pub fn costless_points(tally: &mut Tally) {
    let mut random = Random::new(78);
    for Costless { plan, silent, .. } in costless::plans(&mut random, 300) {
        let finding = judge(tally, "a point that costs nothing", &of_plan(&plan));
        tally.holds(finding == Finding::Refused(19), || {
            format!("{finding:?}: {plan:?}")
        });
        if let Some(silent) = silent {
            judge_good(tally, "a silent leaf that costs nothing", &of_plan(&silent));
        }
    }
}
