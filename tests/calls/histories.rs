//! Random histories of calls on one state: small plans against the list of all
//! their runs, large and deep ones against the compositional computation.

use lent::calls::Call;
use lent::law::{self, Outcome};
use lent::state::{State, EARLIER, LEAVES, LEVEL, LEVELS, STATE, SUSPENDED};
use lent::tally::{Met, Tally};
use reference::calls::{Answer, Controller};
use reference::composed::Composed;
use reference::deep;
use reference::edition::Edition;
use reference::finals::Finals;
use reference::gen::{self, Random};
use reference::listed::Listed;
use reference::numbers::Numbers;
use reference::plan::Plan;
use reference::returns::Returns;
use reference::table::{self, Table};
use reference::visits::Visits;

use super::damage;

/// Small plans whose runs are listed, the most runs of one, and calls on each.
const PLANS: usize = 8_100;
const MOST_RUNS: usize = 500;
const CALLS: usize = 40;

/// Large plans of each edition.
const LARGE: usize = 150;

/// How readings are picked in a history: mostly small steps, mostly where
/// decisions turn, or from everywhere.
const STEADY: u64 = 0;
const TURNING: u64 = 1;
const WILD: u64 = 2;

/// The highest level that was reported, the final decisions, those at visits whose
/// stretch is smaller than that of their point, and those while suspended.
#[derive(Default)]
struct Reached {
    highest: usize,
    finals: Finals,
    visits: Visits,
    returns: Returns,
}

/// One history, with the reference's controller beside the state.
struct History<'a, N: Numbers> {
    numbers: &'a N,
    composed: &'a Composed<'a>,
    table: &'a Table,
    controller: Controller<'a, N>,
    state: State,
    habit: u64,
    /// How often, in a hundred, the highest of the next points is reported.
    upward: u64,
    reached: &'a mut Reached,
}

impl<'a, N: Numbers> History<'a, N> {
    fn new(
        random: &mut Random,
        numbers: &'a N,
        composed: &'a Composed,
        table: &'a Table,
        reached: &'a mut Reached,
    ) -> Self {
        History {
            numbers,
            composed,
            table,
            controller: Controller::new(numbers),
            state: State::fresh(),
            habit: random.pick(&[STEADY, STEADY, TURNING, TURNING, WILD]),
            upward: random.pick(&[0, 50, 100]),
            reached,
        }
    }

    /// A point that can come next, else any number.
    fn point(&self, random: &mut Random) -> u64 {
        let leaves = self.numbers.plan().leaves().len() as u64;
        let place = self.controller.place();
        let next = place.map(|place| (place, self.numbers.next_points(place)));
        let next = next.filter(|(_, points)| !points.is_empty() && !random.chance(10));
        let Some((place, points)) = next else {
            let far = random.pick(&[leaves, 512, 1 << 32, u64::MAX]);
            let near = random.below(leaves + 1);
            return random.pick(&[near, near, near, far]);
        };
        let level = |leaf: usize| {
            let next = self.numbers.report(place, leaf);
            next.map_or(0, |next| self.numbers.level_in_run(&next))
        };
        let points: Vec<usize> = points.into_iter().collect();
        let any = random.pick(&points);
        let highest = points.iter().copied().max_by_key(|&leaf| level(leaf));
        match random.chance(self.upward) {
            true => highest.unwrap_or(any) as u64,
            false => any as u64,
        }
    }

    /// The last reading with which the others run once this point is reported next, or
    /// with which the margin of a stay is 0; the deadline where it cannot come next.
    fn turning(&self, point: u64) -> i128 {
        let deadline = i128::from(self.numbers.plan().deadline);
        self.controller.turning(point).unwrap_or(deadline)
    }

    /// A reading, which may be lower than the last one.
    fn any_reading(&self, random: &mut Random, turning: i128) -> u64 {
        let last = self.controller.last_reading();
        let deadline = self.numbers.plan().deadline;
        let power = 1 << random.pick(&[62, 63]);
        match (self.habit, random.below(100)) {
            (_, 0..3) => last.saturating_sub(1 + random.below(3)),
            (_, 3..5) => random.below(4),
            (WILD, 5..11) => random.beside(turning + (1 << 62)),
            (WILD, 11..17) => random.beside(power),
            (WILD, 17..20) => u64::MAX - random.below(2),
            (WILD, 20..50) | (TURNING, 5..12) => random.beside(i128::from(deadline)),
            (WILD, 50..70) | (TURNING, 12..80) => random.beside(turning),
            (STEADY, 5..60) => last.saturating_add(random.below(deadline / 16 + 2)),
            _ => last,
        }
    }

    /// A reading, mostly not lower than the last one.
    fn reading(&self, random: &mut Random, turning: i128) -> u64 {
        let reading = self.any_reading(random, turning);
        match random.chance(85) {
            true => reading.max(self.controller.last_reading()),
            false => reading,
        }
    }

    /// Whether the run is to end: often where no point can come next.
    fn ends(&self, random: &mut Random) -> bool {
        let place = self.controller.place();
        let next = place.map(|place| self.numbers.next_points(place).len());
        let percent = match next {
            None => 2,
            Some(0) => 80,
            Some(_) => 6,
        };
        random.chance(percent)
    }

    /// The next call of a history, accepted or astray.
    fn some_call(&self, random: &mut Random) -> Call {
        if self.ends(random) {
            return Call::End(self.reading(random, 0));
        }
        let releases = match self.controller.is_running() {
            true => 2,
            false => 90,
        };
        if random.chance(releases) {
            return Call::Release;
        }
        let point = self.point(random);
        let reading = self.reading(random, self.turning(point));
        Call::Report(point, reading)
    }

    /// What the reference's controller gives; it is moved on.
    fn wanted(&mut self, call: Call) -> Outcome {
        let answer = self.controller.call(call);
        let state = match answer {
            Answer::Refused(_) => self.state.clone(),
            Answer::End { .. } => State::fresh(),
            Answer::Decision { .. } => {
                let place = self.controller.place().expect("a release is open");
                let level = self.numbers.level_in_run(place);
                self.reached.highest = self.reached.highest.max(level);
                self.reached.finals.note(self.numbers, place, answer);
                self.reached.visits.note(self.numbers, place, answer);
                self.reached.returns.note(self.numbers, place, answer);
                law::moved(self.numbers, &self.state, place)
                    .decided(self.controller.last_reading(), self.controller.suspended())
            }
        };
        Outcome { answer, state }
    }

    /// Numbers that are never looked at, set to any: of an idle state all but the
    /// first, of a running one those above the level and those of level 0.
    fn litter(&mut self, random: &mut Random) {
        if !self.state.is_running() {
            let number = || random.next() >> random.pick(&[0, 32, 63]);
            self.state.0[SUSPENDED..].fill_with(number);
            return;
        }
        let level = self.state.0[LEVEL] as usize;
        for first in [LEAVES, EARLIER] {
            for at in (level + 1..LEVELS).chain([0]) {
                self.state.0[first + at] = random.next();
            }
        }
    }

    /// A call on a copy of table and state with a number changed.
    fn damage(&self, tally: &mut Tally, random: &mut Random, call: Call) {
        let mut state = self.state.clone();
        if random.chance(80) {
            let at = random.index(STATE);
            state.0[at] = random.other(state.0[at]);
            let wanted = law::on_plan(self.composed, &state, call);
            tally.call(
                "a history, state changed",
                self.table,
                &state,
                call,
                &wanted,
            );
            return;
        }
        let mut table = self.table.clone();
        damage::change_one(random, &mut table);
        let wanted = law::on_table(&table, &state, call);
        tally.call("a history, table changed", &table, &state, call, &wanted);
    }

    /// So many calls, or a few where no release is accepted.
    fn play(&mut self, tally: &mut Tally, random: &mut Random, calls: usize) {
        let plan = self.numbers.plan();
        let fits = self.numbers.total() + plan.switch <= plan.deadline;
        for _ in 0..if fits { calls } else { 5 } {
            if random.chance(5) {
                self.litter(random);
            }
            let call = self.some_call(random);
            if random.chance(4) {
                self.damage(tally, random, call);
            }
            let wanted = self.wanted(call);
            tally.call("a history", self.table, &self.state, call, &wanted);
            self.state = wanted.state;
        }
    }
}

/// Every number of these is read off the list of all runs.
fn small_plans(tally: &mut Tally, edition: Edition) -> Reached {
    let mut random = Random::new(82);
    let (mut plans, mut reached) = (0, Reached::default());
    while plans < edition.share(PLANS) {
        let plan = gen::small_plan(&mut random, edition);
        let Some(listed) = Listed::new(&plan, MOST_RUNS) else {
            continue;
        };
        plans += 1;
        let composed = Composed::new(&plan);
        let mut table = table::table(&listed);
        let more = random.pick(&[0, 0, 1, 8, 9]);
        damage::lengthen(&mut random, &mut table, more);
        let mut history = History::new(&mut random, &listed, &composed, &table, &mut reached);
        history.play(tally, &mut random, CALLS);
    }
    reached
}

/// Those at the caps are gone through upwards, and once more like the others.
fn large_plans(tally: &mut Tally, edition: Edition) -> Reached {
    let mut random = Random::new(83);
    let mut plans: Vec<(Plan, bool)> = Vec::new();
    for plan in deep::of_edition(edition) {
        plans.extend([(plan.clone(), true), (plan, false)]);
    }
    for _ in 0..LARGE {
        plans.push((gen::large_plan(&mut random, edition), false));
    }
    let mut reached = Reached::default();
    for (plan, upward) in &plans {
        let composed = Composed::new(plan);
        let table = table::table(&composed);
        let mut history = History::new(&mut random, &composed, &composed, &table, &mut reached);
        if *upward {
            (history.habit, history.upward) = (STEADY, 100);
        }
        history.play(tally, &mut random, 120);
    }
    reached
}

/// An answer that no call was to give would be one that was not compared.
fn all_met(tally: &mut Tally, edition: Edition) {
    let (met, least) = (&tally.met, edition.share(1_000));
    let words = met.words(edition);
    println!("  {edition}: {} calls, words {words:?}", met.calls);
    println!("  refused by 11 to 17: {:?}", &met.refusals[11..]);
    println!(
        "  late {}, margins held {}, 0 and -1: {:?}",
        met.late, met.held, met.edges
    );
    let often = words.iter().chain(&met.refusals[11..]);
    let often = often.chain(&met.edges).chain([&met.late, &met.held]);
    let enough = often.into_iter().all(|&count| count >= least);
    tally.holds(enough, || format!("each answer is met {least} times"));
}

fn on_small_plans(tally: &mut Tally, edition: Edition) {
    let Reached {
        highest,
        finals,
        visits,
        returns,
    } = small_plans(tally, edition);
    let calls = tally.met.calls;
    println!("  {edition}: {calls} calls on listed plans, levels up to {highest}");
    println!("  final decisions: {finals}");
    println!("  visits with a smaller stretch than their point: {visits}");
    println!("  while suspended: {returns}");
    let enough = calls >= edition.share(200_000);
    tally.holds(enough && highest >= 5, || {
        "enough calls on listed plans, and points at level 5".to_string()
    });
    tally.holds(finals.met(edition, edition.share(500)), || {
        "final decisions of every kind".to_string()
    });
    tally.holds(visits.met(edition, edition.share(40)), || {
        "visits with a smaller stretch of every kind".to_string()
    });
    let twice = edition == Edition::First || returns.twice(100, 20);
    let several = returns.met(edition, 100) && twice;
    tally.holds(several, || "returns of every kind".to_string());
}

fn on_large_plans(tally: &mut Tally, edition: Edition) {
    let Reached {
        highest,
        finals,
        visits,
        returns,
    } = large_plans(tally, edition);
    println!("  final decisions on large plans: {finals}");
    println!("  visits with a smaller stretch there: {visits}");
    println!("  while suspended there: {returns}");
    tally.holds(highest == 32 && finals.answered(edition, 5), || {
        "points at level 32, and final decisions".to_string()
    });
    let several = returns.answered(5) && returns.twice(20, 100);
    tally.holds(edition == Edition::First || several, || {
        "returns on large plans".to_string()
    });
}

pub fn compare_all(tally: &mut Tally) {
    for edition in Edition::BOTH {
        tally.met = Met::default();
        on_small_plans(tally, edition);
        on_large_plans(tally, edition);
        all_met(tally, edition);
    }
}
