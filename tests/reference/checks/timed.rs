//! Timed runs: on small and large plans, whatever the ticks, every call of a
//! timed run is accepted, no reading passes the deadline, and the others run exactly
//! while they may: in edition 1 where the condition has held at every decision, in
//! edition 2 (02, L7) where the rule held at the latest one, the condition if they ran
//! before it and the rule of return if they were suspended.

use reference::calls::{Answer, Controller, Word};
use reference::composed::Composed;
use reference::edition::Edition;
use reference::finals::Finals;
use reference::gen::{self, Random};
use reference::numbers::Numbers;
use reference::plan::{text, Plan};
use reference::returns::Returns;

use super::tally::Tally;

/// How many plans of edition 1 have timed runs.
const SMALL: usize = 3_000;
const LARGE: usize = 200;

struct Timed<'a> {
    plan: &'a Plan,
    composed: &'a Composed<'a>,
    controller: Controller<'a, Composed<'a>>,
    clock: u64,
    others_run: bool,
    /// How the ticks of this run are chosen.
    habit: u64,
    /// Whether the others may run, by the decisions of this run.
    may_run: bool,
    met: &'a mut Met,
}

/// What runs met, so that nothing goes untried.
#[derive(Default)]
struct Met {
    finals: Finals,
    returns: Returns,
}

/// How many ticks something takes that may take up to `most`.
fn ticks(random: &mut Random, habit: u64, most: u64) -> u64 {
    match habit {
        0 => most,
        1 => random.below(most + 1),
        _ => random.pick(&[0, most]),
    }
}

impl Timed<'_> {
    fn shown(&self) -> String {
        String::from_utf8_lossy(&text(self.plan)).into_owned()
    }

    /// Takes over the answer of a call of the timed run; false if it was refused.
    fn answered(&mut self, random: &mut Random, answer: Answer) -> bool {
        if let Some(place) = self.controller.place() {
            self.met.finals.note(self.composed, place, answer);
            self.met.returns.note(self.composed, place, answer);
        }
        let (word, late) = match answer {
            Answer::Refused(_) => return false,
            Answer::End { word, late } | Answer::Decision { word, late, .. } => (word, late),
        };
        self.others_run = word.others_after(self.others_run);
        if word == Word::Suspend || answer.is_return() {
            self.clock += ticks(random, self.habit, word.switching(self.plan));
        }
        !late
    }

    /// What the condition sets beside the elapsed time at the place that the controller
    /// stands at: that of document 01 where a point can come next, else that of L3 of
    /// document 02.
    fn needed(&self) -> Option<u64> {
        let place = self.controller.place()?;
        let reserve = match self.composed.next_points(place).is_empty() {
            true => 0,
            false => self.composed.remaining(place) + self.plan.switch,
        };
        Some(self.composed.stretch_at(place) + reserve)
    }

    /// Takes over a decision with this reading that was just made, the others being as they
    /// were before it.
    fn judge(&mut self, reading: u64) {
        let holds = |cost: u64| {
            let needed = self.needed();
            needed.is_none_or(|needed| reading + needed + cost <= self.plan.deadline)
        };
        self.may_run = match self.plan.resume {
            None => self.may_run && holds(0),
            Some(_) if self.others_run => holds(0),
            Some(cost) => holds(cost),
        };
    }

    /// A call that the rules refuse, somewhere among the others.
    fn disturb(&mut self, random: &mut Random, tally: &mut Tally) {
        let answer = match random.below(3) {
            0 if self.controller.is_running() => self.controller.release(),
            1 => self
                .controller
                .report(self.plan.leaves().len() as u64, self.clock),
            _ if !self.controller.is_running() => self.controller.end(self.clock),
            _ => return,
        };
        tally.holds(matches!(answer, Answer::Refused(_)), || {
            format!("{answer:?} for a stray call")
        });
    }

    fn release(&mut self, random: &mut Random, tally: &mut Tally) {
        self.clock = 0;
        let answer = self.controller.release();
        self.may_run = true;
        self.judge(0);
        tally.holds(self.answered(random, answer), || {
            format!("release on {}", self.shown())
        });
        tally.equal(self.others_run, self.may_run, || {
            format!("others after release on {}", self.shown())
        });
    }

    fn report(&mut self, random: &mut Random, leaf: usize, tally: &mut Tally) {
        let reading = self.clock;
        let answer = self.controller.report(leaf as u64, reading);
        self.judge(reading);
        let kept = self.answered(random, answer) && reading <= self.plan.deadline;
        let what = || {
            format!(
                "{answer:?} at {reading} for leaf {leaf} on {}",
                self.shown()
            )
        };
        tally.holds(kept, what);
        tally.equal(self.others_run, self.may_run, what);
        if random.chance(10) {
            self.disturb(random, tally);
        }
    }

    fn end(&mut self, random: &mut Random, tally: &mut Tally) {
        let answer = self.controller.end(self.clock);
        tally.holds(self.clock <= self.plan.deadline, || {
            format!(
                "{answer:?} at {} for the end on {}",
                self.clock,
                self.shown()
            )
        });
        let ended = self.answered(random, answer);
        tally.holds(ended && self.others_run, || {
            format!("{answer:?} for the end on {}", self.shown())
        });
        self.disturb(random, tally);
    }

    /// A run from its release to its end, with stray calls in between.
    fn play(&mut self, random: &mut Random, run: &[usize], tally: &mut Tally) {
        let leaves = self.plan.leaves();
        self.habit = random.below(3);
        self.release(random, tally);
        for &leaf in run {
            let form = leaves[leaf].1;
            if form.point {
                self.report(random, leaf, tally);
            }
            let most = if self.others_run {
                form.loaded
            } else {
                form.isolated
            };
            self.clock += ticks(random, self.habit, most);
        }
        self.end(random, tally);
    }
}

/// Several runs of one plan, run after run on one state.
fn plan_runs(
    tally: &mut Tally,
    random: &mut Random,
    plan: &Plan,
    long: usize,
    met: &mut Met,
) -> usize {
    let composed = Composed::new(plan);
    if composed.total() + plan.switch > plan.deadline {
        return 0;
    }
    let controller = Controller::new(&composed);
    let mut timed = Timed {
        plan,
        composed: &composed,
        controller,
        clock: 0,
        others_run: true,
        habit: 0,
        may_run: true,
        met,
    };
    let mut count = 0;
    for _ in 0..4 {
        if let Some(run) = gen::random_run(random, plan, long) {
            timed.play(random, &run, tally);
            count += 1;
        }
    }
    count
}

/// Runs of so many small and large plans of an edition.
fn of_edition(tally: &mut Tally, edition: Edition) {
    let mut random = Random::new(31);
    let (mut small, mut large) = (0, 0);
    let mut met = Met::default();
    for _ in 0..edition.share(SMALL) {
        let plan = gen::small_plan(&mut random, edition);
        small += plan_runs(tally, &mut random, &plan, 200, &mut met);
    }
    for _ in 0..edition.share(LARGE) {
        let plan = gen::large_plan(&mut random, edition);
        large += plan_runs(tally, &mut random, &plan, 400, &mut met);
    }
    println!("  {edition}: {small} runs of small plans, {large} of large ones");
    let enough = small > edition.share(SMALL) && large > edition.share(LARGE / 2);
    tally.holds(enough, || format!("{small} and {large} timed runs"));
    println!("  final decisions: {}", met.finals);
    tally.holds(met.finals.met(edition, edition.share(20)), || {
        "each answer of a final decision is met in timed runs".to_string()
    });
    println!("  while suspended: {}", met.returns);
    let twice = edition == Edition::First || met.returns.twice(50, 10);
    tally.holds(met.returns.met(edition, 20) && twice, || {
        "each answer while suspended is met in timed runs".to_string()
    });
}

pub fn check(tally: &mut Tally) {
    for edition in Edition::BOTH {
        of_edition(tally, edition);
    }
}
