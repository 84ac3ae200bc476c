//! Whether both sides answer alike and leave the same memory: on what is measured, on random texts, histories, damaged tables and damaged states.

use std::collections::BTreeMap;

use crate::edges;
use crate::jobs::{jobs, Call};
use crate::memory::{Head, Leaf, Reply, State, FUNCTIONS, LEVELS};
use crate::plans::Plan;
use crate::random::{random_text, spoil, Random};
use crate::reference::calls::RESUME;
use crate::reference::place::Place;
use crate::sides::{Side, PROVED, REFERENCE};

const TEXTS: usize = 3_000;
const HISTORIES: usize = 60;
const STEPS: usize = 60;
const DAMAGED_TABLES: usize = 400;
const SHOWN: usize = 10;
const BROKEN: u64 = 11;

#[derive(Default)]
pub struct Tally {
    pub passed: usize,
    pub failed: usize,
    /// How often each refusal and each word was answered, by their numbers.
    refusals: BTreeMap<u64, usize>,
    words: [usize; 6],
    /// The words of decisions after which no point could come; go, suspend, stay and resume are the first four behind that of refusals.
    final_words: [usize; 6],
    /// Those of reports that let the others come back, where a point could still come.
    returns: usize,
    /// The stretch of each point's last visit in a history, and how often it was another at the next.
    stretches: BTreeMap<u64, u64>,
    differing: usize,
}

impl Tally {
    pub fn note(&mut self, alike: bool, what: impl FnOnce() -> String) {
        if alike {
            self.passed += 1;
            return;
        }
        self.failed += 1;
        if self.failed <= SHOWN {
            eprintln!("different: {}", what());
        }
    }

    /// Both sides read a text into rows and heads of the same random numbers; gives the table of an accepted one.
    fn read(
        &mut self,
        random: &mut Random,
        text: &[u8],
        records: usize,
    ) -> Option<(Vec<Leaf>, Head)> {
        let row: Vec<Leaf> = (0..records).map(|_| junk_leaf(random)).collect();
        let head = Head {
            deadline: random.next(),
            totals: [random.next(); FUNCTIONS],
            max_load_totals: [random.next(); FUNCTIONS],
            ..Head::default()
        };
        let (mut proved_row, mut proved_head) = (row.clone(), head);
        let proved = (PROVED.read)(text, &mut proved_row, &mut proved_head);
        let (mut row, mut head) = (row, head);
        let ruling = (REFERENCE.read)(text, &mut row, &mut head);
        let alike = proved == ruling && proved_row == row && proved_head == head;
        self.note(alike, || {
            format!("{proved:?} {ruling:?} of {}", String::from_utf8_lossy(text))
        });
        *self.refusals.entry(ruling.number).or_default() += 1;
        (ruling.number == 0).then_some((row, head))
    }

    /// Both sides make a call from the same state; gives the state afterwards and the reply.
    fn call(
        &mut self,
        what: &str,
        state: &State,
        make: impl Fn(&Side, &mut State) -> Reply,
    ) -> (State, Reply) {
        let (mut by_proved, mut by_reference) = (*state, *state);
        let proved = make(&PROVED, &mut by_proved);
        let reply = make(&REFERENCE, &mut by_reference);
        let alike = proved == reply && by_proved == by_reference;
        self.note(alike, || {
            format!("{what}: {proved:?} {reply:?} from {state:?}")
        });
        *self.refusals.entry(reply.number).or_default() += 1;
        self.words[reply.word as usize] += 1;
        (by_reference, reply)
    }

    /// Counts a decision that left this state, if it was a final one, and a visit whose stretch is another than that of the same point before.
    fn note_decision(&mut self, row: &[Leaf], head: &Head, state: &State, reply: &Reply) {
        if reply.word == 0 {
            return;
        }
        let row = &row[..head.leaves];
        let ahead = Place { row, head, state }.ahead();
        self.final_words[reply.word as usize] += usize::from(ahead.is_final());
        self.returns += usize::from(reply.word == RESUME && !ahead.is_final());
        if state.level > 0 {
            let point = state.leaves[state.level as usize];
            let before = self.stretches.insert(point, ahead.stretch());
            self.differing += usize::from(before.is_some_and(|before| before != ahead.stretch()));
        }
    }

    fn release(&mut self, row: &[Leaf], head: &Head, state: &State) -> State {
        let (after, reply) = self.call("release", state, |side, state| {
            (side.release)(row, head, state)
        });
        self.note_decision(row, head, &after, &reply);
        after
    }

    fn report(
        &mut self,
        row: &[Leaf],
        head: &Head,
        state: &State,
        point: u64,
        reading: u64,
    ) -> State {
        let (after, reply) = self.call("report", state, |side, state| {
            (side.report)(row, head, state, point, reading)
        });
        self.note_decision(row, head, &after, &reply);
        after
    }

    fn end(&mut self, row: &[Leaf], head: &Head, state: &State, reading: u64) -> State {
        let (after, _) = self.call("end", state, |side, state| {
            (side.end)(row, head, state, reading)
        });
        after
    }

    fn all_calls(&mut self, row: &[Leaf], head: &Head, state: &State, point: u64) {
        self.release(row, head, state);
        self.report(row, head, state, point, state.reading);
        self.end(row, head, state, state.reading);
    }
}

fn junk_leaf(random: &mut Random) -> Leaf {
    Leaf {
        kind: random.next(),
        after: random.next(),
        max_load_turn: random.next(),
        ..Leaf::default()
    }
}

/// A number a little away from this one, or one from an edge.
fn moved(random: &mut Random, number: u64) -> u64 {
    match random.below(6) {
        0 | 1 => number.wrapping_add(1),
        2 | 3 => number.wrapping_sub(1),
        4 => random.pick(&[0, 1, 2, 3, 32, 33, 512, 65_536, 1 << 20, 1 << 40, u64::MAX]),
        _ => random.below(40),
    }
}

fn damage_leaf(random: &mut Random, leaf: &mut Leaf) {
    let fields = [
        &mut leaf.kind,
        &mut leaf.point,
        &mut leaf.isolated,
        &mut leaf.max_load,
        &mut leaf.detail,
        &mut leaf.other,
        &mut leaf.after,
        &mut leaf.level,
        &mut leaf.turn,
        &mut leaf.tail,
        &mut leaf.max_load_turn,
    ];
    let at = random.index(fields.len());
    if let Some(field) = fields.into_iter().nth(at) {
        *field = moved(random, *field);
    }
}

fn damage_head(random: &mut Random, head: &mut Head) {
    let at = random.index(FUNCTIONS);
    match random.below(11) {
        0 => head.deadline = moved(random, head.deadline),
        1 => head.switching = moved(random, head.switching),
        2 => head.total = moved(random, head.total),
        3 => head.max_load_total = moved(random, head.max_load_total),
        4 => head.max_load_totals[at] = moved(random, head.max_load_totals[at]),
        5 => head.leaves = moved(random, head.leaves as u64) as usize,
        6 => head.functions = moved(random, head.functions as u64) as usize,
        7 => head.bounds[at + 1] = moved(random, head.bounds[at + 1]),
        8 => head.edition = moved(random, head.edition),
        9 => head.resuming = moved(random, head.resuming),
        _ => head.totals[at] = moved(random, head.totals[at]),
    }
}

/// Moves a loop of the stack on by a round, with all remaining times that hang on it: right as long as the loop may turn so often.
fn later_round(random: &mut Random, row: &[Leaf], state: &mut State) {
    let level = (state.level as usize).min(LEVELS);
    let at = random.index(level + 1);
    let turn = row
        .get(state.leaves[at] as usize)
        .map_or(0, |leaf| leaf.turn);
    state.earlier[at] = state.earlier[at].wrapping_add(1);
    for time in &mut state.times[at..=level] {
        *time = time.wrapping_sub(turn);
    }
}

fn damage_state(random: &mut Random, row: &[Leaf], state: &mut State) {
    if random.chance(20) {
        return later_round(random, row, state);
    }
    // Mostly at the levels in use and just above.
    let at = random.index((state.level as usize + 2).min(LEVELS + 1));
    match random.below(7) {
        0 => state.running = moved(random, state.running),
        1 => state.suspended = moved(random, state.suspended),
        2 => state.reading = moved(random, state.reading),
        3 => state.level = moved(random, state.level),
        4 => state.leaves[at] = moved(random, state.leaves[at]),
        5 => state.earlier[at] = moved(random, state.earlier[at]),
        _ => state.times[at] = moved(random, state.times[at]),
    }
}

/// A point that may come next, as often as not.
fn guess(random: &mut Random, row: &[Leaf], state: &State) -> u64 {
    let level = (state.level as usize).min(LEVELS);
    let last = state.leaves[level] as usize;
    match random.below(4) {
        0 => state.leaves[random.index(level + 1)],
        1 => random.below(row.len() as u64 + 1),
        _ => {
            let from = if random.chance(70) { last } else { 0 };
            let points = (from..row.len()).filter(|&leaf| row[leaf].point == 1);
            let near: Vec<u64> = points.take(4).map(|leaf| leaf as u64).collect();
            match near.is_empty() {
                true => 0,
                false => random.pick(&near),
            }
        }
    }
}

fn history(tally: &mut Tally, random: &mut Random, row: &[Leaf], head: &Head) {
    tally.stretches.clear();
    let mut state = tally.release(row, head, &State::FRESH);
    tally.all_calls(row, head, &State::FRESH, 0);
    if state.running == 0 {
        return;
    }
    for _ in 0..STEPS {
        let point = guess(random, row, &state);
        let step = random.below(1 + head.deadline / 20);
        let reading = if random.chance(5) {
            step
        } else {
            state.reading.saturating_add(step)
        };
        match random.below(20) {
            0 => state = tally.release(row, head, &state),
            1 | 2 => state = tally.end(row, head, &state, reading),
            3 | 4 => {
                let mut damaged = state;
                damage_state(random, row, &mut damaged);
                tally.all_calls(row, head, &damaged, point);
            }
            5 => tally.all_calls(row, head, &state, point),
            _ => state = tally.report(row, head, &state, point, reading),
        }
    }
}

fn damaged_tables(tally: &mut Tally, random: &mut Random, row: &[Leaf], head: &Head, count: usize) {
    let states = walked(random, row, head);
    for _ in 0..count {
        let (mut row, mut head) = (row.to_vec(), *head);
        match random.below(10) {
            0..=5 if !row.is_empty() => {
                let at = random.index(row.len());
                damage_leaf(random, &mut row[at]);
            }
            6 => row.truncate(random.index(row.len() + 1)),
            7 => row.push(junk_leaf(random)),
            _ => damage_head(random, &mut head),
        }
        let state = random.pick(&states);
        let point = guess(random, &row, &state);
        tally.all_calls(&row, &head, &state, point);
    }
}

/// A fresh state and some of a history.
fn walked(random: &mut Random, row: &[Leaf], head: &Head) -> Vec<State> {
    let mut state = State::FRESH;
    let mut states = vec![state];
    (REFERENCE.release)(row, head, &mut state);
    for _ in 0..STEPS {
        states.push(state);
        let point = guess(random, row, &state);
        (REFERENCE.report)(row, head, &mut state, point, 0);
    }
    states
}

fn texts(tally: &mut Tally, random: &mut Random) {
    for _ in 0..TEXTS {
        let text = random_text(random);
        let room = if random.chance(10) {
            random.index(30)
        } else {
            600
        };
        if let Some((row, head)) = tally.read(random, &text, room) {
            for _ in 0..2 {
                // Also with a record behind the plan's last leaf.
                let records = (head.leaves + random.index(2)).min(row.len());
                history(tally, random, &row[..records], &head);
            }
            damaged_tables(tally, random, &row[..head.leaves], &head, 20);
        }
        let mut broken = text;
        for _ in 0..1 + random.index(2) {
            spoil(random, &mut broken);
        }
        tally.read(random, &broken, 600);
    }
}

/// Both sides on what is measured.
fn measured(tally: &mut Tally, random: &mut Random, plan: &Plan) {
    for job in jobs(plan) {
        let (mut one, mut two) = (job.lent(), job.lent());
        let (mut moved_by_one, mut moved_by_two) = (job.before, job.before);
        let proved = job.run(&PROVED, &mut one, &mut moved_by_one);
        let reply = job.run(&REFERENCE, &mut two, &mut moved_by_two);
        let same_table = one.row == two.row && one.head == two.head;
        let same_memory = same_table && moved_by_one == moved_by_two;
        let accepted = match job.call {
            Call::Read => reply.word == 0,
            Call::Report(_) if plan.head.edition == 2 => reply.word == RESUME,
            _ => reply.word > 0,
        };
        tally.note(proved == reply && same_memory && accepted, || {
            let (call, shape, leaves) = (job.call.name(), plan.shape, plan.leaves);
            format!("{call} of {shape} {leaves}: {proved:?} {reply:?}")
        });
    }
    for records in [0, plan.leaves - 1, plan.leaves, plan.leaves + 3] {
        tally.read(random, &plan.text, records);
    }
    for _ in 0..HISTORIES {
        history(tally, random, &plan.row, &plan.head);
        let mut broken = plan.text.clone();
        spoil(random, &mut broken);
        tally.read(random, &broken, plan.leaves);
    }
    damaged_tables(tally, random, &plan.row, &plan.head, DAMAGED_TABLES);
}

/// Texts whose ruling is known beforehand.
fn edge_texts(tally: &mut Tally, random: &mut Random) {
    for (text, wanted) in edges::texts() {
        tally.read(random, &text, 600);
        let mut row = vec![Leaf::default(); 600];
        let ruling = (REFERENCE.read)(&text, &mut row, &mut Head::default());
        tally.note(ruling == wanted, || {
            format!(
                "{ruling:?}, not {wanted:?} of {}",
                String::from_utf8_lossy(&text)
            )
        });
    }
}

/// Tables that only a limit breaks.
fn edge_tables(tally: &mut Tally) {
    for edges::Passed { row, head } in edges::tables() {
        tally.all_calls(&row, &head, &State::FRESH, 0);
        let reply = (REFERENCE.release)(&row, &head, &mut State::FRESH.clone());
        tally.note(reply.number == BROKEN, || format!("{reply:?} on {row:?}"));
    }
}

pub fn agree(plans: &[Plan]) -> Tally {
    let mut tally = Tally::default();
    let mut random = Random::new(1);
    edge_texts(&mut tally, &mut random);
    edge_tables(&mut tally);
    for plan in plans {
        measured(&mut tally, &mut random, plan);
    }
    texts(&mut tally, &mut random);
    let Tally {
        refusals,
        words,
        final_words,
        returns,
        differing,
        ..
    } = &tally;
    println!("answers by refusal, 0 for none: {refusals:?}");
    println!("answers of calls by word, 0 for refused: {words:?}");
    println!("answers of final decisions by word: {final_words:?}");
    println!("returns where a point can still come: {returns}");
    println!("visits with another stretch than the last of the same point: {differing}");
    // 18 is for lines of logs.
    let mut numbers = (0..=17).chain([19]);
    let all_met = numbers.all(|number| refusals.contains_key(&number)) && !words.contains(&0);
    let finals_met = !final_words[1..=4].contains(&0);
    let returns_met = *returns > 0;
    let visits_met = *differing > 0;
    tally.note(all_met, || "not every refusal and word was met".to_string());
    tally.note(finals_met, || {
        "not every word of a final decision was met".to_string()
    });
    tally.note(returns_met, || {
        "no return was met where a point can still come".to_string()
    });
    tally.note(visits_met, || {
        "no point was met whose visits have different stretches".to_string()
    });
    tally
}
