//! Any bytes in row, head and state: random ones, and those of good tables and
//! states with some bytes changed. The reference decides what is right.

use lent::calls::Call;
use lent::law;
use lent::state::{State, RUNNING, STATE, SUSPENDED};
use lent::tally::{Met, Tally};
use reference::calls::Answer;
use reference::composed::Composed;
use reference::edition::{editions, Edition};
use reference::gen::{self, Random};
use reference::plan::{Form, Kind, Plan, MOST_LEAVES};
use reference::records::RECORD;
use reference::table::{self, Table, COLUMNS, FUNCTIONS, HEAD, LEAVES, PARTS};

use super::damage::{any_call, fitting_call, lengthen, some_state};
use super::ROWS;

/// Numbers whose bytes are all random, all 0, all 255, or random in the lowest
/// alone.
fn any_numbers(random: &mut Random, count: usize) -> Vec<u64> {
    let habit = random.below(5);
    let mut number = || match habit {
        0 => 0,
        1 => u64::MAX,
        2 => random.below(4),
        3 => random.below(256),
        _ => random.next(),
    };
    (0..count).map(|_| number()).collect()
}

fn any_table(random: &mut Random) -> Table {
    let records = random.pick(&ROWS);
    let mut row = vec![[0; RECORD]; records];
    for columns in COLUMNS {
        let numbers = any_numbers(random, records * columns.len());
        for (record, numbers) in row.iter_mut().zip(numbers.chunks(columns.len())) {
            record[columns.clone()].copy_from_slice(numbers);
        }
    }
    let mut head = [0; HEAD];
    head.copy_from_slice(&any_numbers(random, HEAD));
    if random.chance(50) {
        head[LEAVES] = random.below(4);
        head[FUNCTIONS] = random.below(4);
    }
    Table { row, head }
}

fn any_state(random: &mut Random) -> State {
    let numbers = any_numbers(random, STATE);
    let mut state = State::fresh();
    state.0.copy_from_slice(&numbers);
    state
}

fn change_byte(random: &mut Random, number: &mut u64) {
    let mut bytes = number.to_le_bytes();
    let lowest = random.chance(50);
    let byte = if lowest { 0 } else { random.index(bytes.len()) };
    bytes[byte] = match random.below(3) {
        0 => bytes[byte] ^ (1 << random.below(8)),
        1 => random.pick(&[0, 1, 255]),
        _ => random.next() as u8,
    };
    *number = u64::from_le_bytes(bytes);
}

fn change_state(random: &mut Random, state: &mut State) {
    let at = random.index(STATE);
    change_byte(random, &mut state.0[at]);
}

/// A byte of some part of the table, if the part has some, or of the state.
fn change_some(random: &mut Random, table: &mut Table, state: &mut State) {
    let part = random.index(PARTS + 1);
    if part == PARTS {
        return change_state(random, state);
    }
    if let Some(at) = table.place(random, part) {
        change_byte(random, table.number(at));
    }
}

/// Row, head and state at random, on their own and together with good ones.
fn random_bytes(tally: &mut Tally, random: &mut Random, edition: Edition) {
    let plan = gen::small_plan(random, edition);
    let composed = Composed::new(&plan);
    let good = (table::table(&composed), some_state(random, &composed));
    let any = (any_table(random), any_state(random));
    let mut mixed = good.0.clone();
    mixed.head = any.0.head;
    let mut beside = any.0.clone();
    beside.head = good.0.head;
    let cases = [
        ("any row, head and state", &any.0, &any.1),
        ("any row and head", &any.0, &good.1),
        ("any state", &good.0, &any.1),
        ("any head", &mixed, &good.1),
        ("any row", &beside, &good.1),
    ];
    for (group, table, state) in cases {
        for call in [
            Call::Release,
            fitting_call(random, &composed, &good.1),
            any_call(random, &plan, state),
        ] {
            let wanted = law::on_table(table, state, call);
            tally.call(group, table, state, call, &wanted);
        }
    }
}

/// Good ones with one to three bytes changed, in a row with more behind.
fn changed_bytes(tally: &mut Tally, random: &mut Random, edition: Edition) {
    let plan = gen::small_plan(random, edition);
    let composed = Composed::new(&plan);
    let mut table = table::table(&composed);
    let more = random.pick(&[0, 0, 1, 5]);
    lengthen(random, &mut table, more);
    for _ in 0..10 {
        let mut state = match random.chance(20) {
            true => State::fresh(),
            false => some_state(random, &composed),
        };
        let call = fitting_call(random, &composed, &state);
        let mut changed = table.clone();
        for _ in 0..1 + random.index(3) {
            change_some(random, &mut changed, &mut state);
        }
        let wanted = law::on_table(&changed, &state, call);
        tally.call("bytes changed", &changed, &state, call, &wanted);
        let mut state = some_state(random, &composed);
        let call = fitting_call(random, &composed, &state);
        change_state(random, &mut state);
        let wanted = law::on_table(&table, &state, call);
        tally.call("a byte of the state changed", &table, &state, call, &wanted);
    }
}

/// Any number but 0 says yes: a refused call leaves it as it was, an accepted one
/// makes it 1, or 0 where it says no afterwards.
fn other_yes(tally: &mut Tally, random: &mut Random, edition: Edition) {
    let plan = gen::small_plan(random, edition);
    let composed = Composed::new(&plan);
    let table = table::table(&composed);
    let state = some_state(random, &composed);
    for running in [1, 2, 256, 1 << 32, 1 << 63, u64::MAX] {
        for suspended in [0, 1, 2, 256, 1 << 32, 1 << 63, u64::MAX] {
            let mut state = state.clone();
            state.0[RUNNING] = running;
            state.0[SUSPENDED] = suspended;
            for call in [
                Call::Release,
                fitting_call(random, &composed, &state),
                any_call(random, &plan, &state),
            ] {
                let wanted = law::on_table(&table, &state, call);
                tally.call("another yes", &table, &state, call, &wanted);
            }
        }
    }
}

/// So many points one after the other, as a table that is right but for the count
/// where it has more than 512 leaves.
fn longest_rows(tally: &mut Tally) {
    for leaves in [MOST_LEAVES, MOST_LEAVES + 1, 1_000] {
        let form = |leaf: usize| Form {
            leaf,
            point: true,
            isolated: 1,
            loaded: 2,
            kind: Kind::Leaf,
        };
        let plan = Plan {
            deadline: 5_000,
            switch: 1,
            resume: None,
            functions: vec![(0..leaves).map(form).collect()],
        };
        let table = table::table(&Composed::new(&plan));
        for call in [Call::Release, Call::Report(0, 0), Call::End(0)] {
            let state = State::fresh();
            let wanted = law::on_table(&table, &state, call);
            let refused = Answer::Refused(11);
            tally.holds((wanted.answer == refused) == (leaves > MOST_LEAVES), || {
                format!("{leaves} leaves: {wanted:?}")
            });
            tally.call("a long row", &table, &state, call, &wanted);
        }
    }
}

pub fn compare_all(tally: &mut Tally) {
    let mut random = Random::new(94);
    tally.met = Met::default();
    longest_rows(tally);
    for edition in editions(1_000) {
        random_bytes(tally, &mut random, edition);
        changed_bytes(tally, &mut random, edition);
    }
    for edition in editions(100) {
        other_yes(tally, &mut random, edition);
    }
    let met = &tally.met;
    let refused = &met.refusals[11..];
    println!(
        "  any bytes: {} calls, refused by 11 to 17: {refused:?}",
        met.calls
    );
    let enough =
        met.refusals[11] >= 10_000 && met.words(Edition::Second).iter().all(|&count| count >= 100);
    tally.holds(enough, || "any bytes, refused and accepted".to_string());
}
