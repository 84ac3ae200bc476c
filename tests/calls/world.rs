//! The world of timed runs. It knows the plan, a run of it, the ticks and the
//! answers of its calls; table and state it only hands on. The run is picked as it
//! goes, so that it can take the dearer way under load and alone.

use lent::calls::{made, Call};
use lent::state::State;
use lent::tally::Tally;
use reference::calls::{Answer, Word};
use reference::composed::{Composed, Place};
use reference::finals::Finals;
use reference::gen::Random;
use reference::numbers::Numbers;
use reference::plan::{text, Form, Kind, Plan};
use reference::returns::Returns;
use reference::table::Table;
use reference::visits::Visits;

use super::habit::{dearer_parts, Habit};

/// What runs met, so that nothing goes untried.
#[derive(Default)]
pub struct Met {
    /// Runs begun; ended; and ended with as many ticks as there may be.
    pub runs: usize,
    pub ended: usize,
    pub worst: usize,
    pub calls: usize,
    pub refused: usize,
    /// Runs in which the others were suspended, at release and later.
    pub at_release: usize,
    pub at_report: usize,
    /// Ends with a reading of D.
    pub at_deadline: usize,
    pub broken_off: usize,
    pub finals: Finals,
    pub visits: Visits,
    pub returns: Returns,
}

impl Met {
    pub fn print(&self, which: &str) {
        let (runs, ended, off) = (self.runs, self.ended, self.broken_off);
        println!("  {which}: {runs} runs, {ended} ended, {off} broken off");
        let (worst, at_deadline) = (self.worst, self.at_deadline);
        println!("    {worst} ended with most ticks, {at_deadline} at the deadline");
        let (at_release, at_report) = (self.at_release, self.at_report);
        println!("    suspended at release in {at_release}, later in {at_report}");
        println!("    {} calls, {} refused", self.calls, self.refused);
        println!("    final decisions: {}", self.finals);
        println!(
            "    visits with a smaller stretch than their point: {}",
            self.visits
        );
        println!("    while suspended: {}", self.returns);
    }
}

/// A release that is open, as the rules see it: where the run stands, the last
/// accepted reading, and whether the others may run.
struct Open {
    place: Place,
    reading: u64,
    may_run: bool,
}

pub struct World<'a> {
    plan: &'a Plan,
    leaves: Vec<&'a Form>,
    composed: &'a Composed<'a>,
    table: &'a Table,
    /// Of an if: whether its then part is the dearer one, alone and under load.
    dearer: Vec<[bool; 2]>,
    tally: &'a mut Tally,
    random: &'a mut Random,
    met: &'a mut Met,
    /// Left by the last call, handed to the next, and not looked at.
    state: State,
    clock: u64,
    others: bool,
    open: Option<Open>,
    habit: Habit,
    visits: usize,
}

/// A run that goes wrong, or is broken off, stops there.
pub struct Stopped;

impl<'a> World<'a> {
    /// On a fresh state. The plan must be accepted, with total and T within D.
    pub fn new(
        composed: &'a Composed<'a>,
        table: &'a Table,
        tally: &'a mut Tally,
        random: &'a mut Random,
        met: &'a mut Met,
    ) -> World<'a> {
        let plan = composed.plan();
        let habit = Habit::new(random, 0);
        World {
            plan,
            leaves: plan.leaves().into_iter().map(|(_, form)| form).collect(),
            composed,
            table,
            dearer: dearer_parts(plan),
            tally,
            random,
            met,
            state: State::fresh(),
            clock: 0,
            others: true,
            open: None,
            habit,
            visits: 0,
        }
    }

    fn holds(&mut self, truth: bool, what: impl Fn() -> String) -> Result<(), Stopped> {
        let plan = self.plan;
        self.tally.holds(truth, || {
            let shown = text(plan);
            format!("{} on\n{}", what(), String::from_utf8_lossy(&shown))
        });
        match truth {
            true => Ok(()),
            false => Err(Stopped),
        }
    }

    fn ticks(&mut self, most: u64) -> u64 {
        match self.habit.ticks {
            0 => most,
            1 => self.random.below(most + 1),
            _ => self.random.pick(&[0, most]),
        }
    }

    /// The answer to a call on the state that the last call left.
    fn answer(&mut self, call: Call) -> Option<Answer> {
        self.met.calls += 1;
        made(self.table, &mut self.state, call)?.answer(call)
    }

    /// Whether the others may run since the latest decision, or as no release is open.
    fn others_may_run(&self) -> bool {
        self.open.as_ref().is_none_or(|open| open.may_run)
    }

    /// Claimed after each call.
    fn others_right(&mut self, call: Call) -> Result<(), Stopped> {
        let (others, may_run) = (self.others, self.others_may_run());
        self.holds(others == may_run, || {
            format!("others {others} after {call:?}, by the rules {may_run}")
        })
    }

    /// Whether the others may run once a decision at this place with the clock as its
    /// reading is made. In an edition 1 plan the condition must hold there and at every
    /// decision before; in one of edition 2 (02, L7) there alone, if they run before it, and
    /// the rule of return if they are suspended.
    fn may_run(&self, place: &Place) -> bool {
        let needed = self.clock + self.composed.needed(place);
        match self.plan.resume {
            None => self.others_may_run() && needed <= self.plan.deadline,
            Some(_) if self.others => needed <= self.plan.deadline,
            Some(cost) => needed + cost <= self.plan.deadline,
        }
    }

    /// A call of the timed run that is to be decided at this place.
    fn decide(&mut self, call: Call, place: Place) -> Result<(), Stopped> {
        let (reading, may_run) = (self.clock, self.may_run(&place));
        let answer = self.answer(call);
        let Some(decision @ Answer::Decision { word, late, .. }) = answer else {
            return self.holds(false, || format!("{answer:?} for {call:?}"));
        };
        self.holds(reading <= self.plan.deadline && !late, || {
            format!("{answer:?} for {call:?}")
        })?;
        self.met.finals.note(self.composed, &place, decision);
        self.met.visits.note(self.composed, &place, decision);
        self.met.returns.note(self.composed, &place, decision);
        self.others = word.others_after(self.others);
        match place.is_empty() {
            _ if word != Word::Suspend => {}
            true => self.met.at_release += 1,
            false => self.met.at_report += 1,
        }
        if matches!(word, Word::Suspend | Word::Resume) {
            self.clock += self.ticks(word.switching(self.plan));
        }
        self.open = Some(Open {
            place,
            reading,
            may_run,
        });
        self.others_right(call)
    }

    fn visit(&mut self, form: &Form) -> Result<(), Stopped> {
        self.stray()?;
        if self.visits == self.habit.most {
            self.met.broken_off += 1;
            return Err(Stopped);
        }
        self.visits += 1;
        if form.point {
            let place = self.open.as_ref().map(|open| &open.place);
            let next = place.and_then(|place| self.composed.report(place, form.leaf));
            let next = next.expect("a run of the plan has this report");
            self.decide(Call::Report(form.leaf as u64, self.clock), next)?;
            self.stray()?;
        }
        let most = match self.others {
            true => form.loaded,
            false => form.isolated,
        };
        self.clock += self.ticks(most);
        Ok(())
    }

    fn run(&mut self, forms: &[Form]) -> Result<(), Stopped> {
        let plan = self.plan;
        for form in forms {
            self.visit(form)?;
            match &form.kind {
                Kind::Leaf => {}
                Kind::Call(target) => self.run(&plan.functions[*target])?,
                Kind::If(then_part, else_part) => {
                    let dearer = self.dearer[form.leaf][usize::from(self.others)];
                    let by_then = match self.random.chance(self.habit.dear) {
                        true => dearer,
                        false => self.random.chance(50),
                    };
                    self.run(if by_then { then_part } else { else_part })?;
                }
                Kind::Loop(bound, body) => {
                    let few = self.random.below(4).min(*bound);
                    let dear = self.random.chance(self.habit.dear);
                    let rounds = if dear { *bound } else { few };
                    for _ in 0..rounds {
                        if self.visits >= self.habit.long {
                            break;
                        }
                        self.run(body)?;
                        self.visit(form)?;
                    }
                }
            }
        }
        Ok(())
    }

    fn end(&mut self) -> Result<(), Stopped> {
        let call = Call::End(self.clock);
        self.met.at_deadline += usize::from(self.clock == self.plan.deadline);
        self.open = None;
        let answer = self.answer(call);
        let Some(Answer::End { word, late }) = answer else {
            return self.holds(false, || format!("{answer:?} for {call:?}"));
        };
        self.holds(self.clock <= self.plan.deadline && !late, || {
            format!("{answer:?} for {call:?}")
        })?;
        self.others = word.others_after(self.others);
        self.others_right(call)
    }

    /// One timed run from release to end, in which loops are left once so many
    /// visits were made.
    pub fn timed_run(&mut self, long: usize) -> Result<(), Stopped> {
        self.habit = Habit::new(self.random, long);
        self.clock = 0;
        self.visits = 0;
        self.met.runs += 1;
        self.stray()?;
        self.decide(Call::Release, self.composed.release())?;
        self.stray()?;
        let plan = self.plan;
        self.run(&plan.functions[plan.main()])?;
        self.stray()?;
        self.end()?;
        self.met.ended += 1;
        self.met.worst += usize::from(self.habit.ticks == 0);
        self.stray()
    }

    /// A call that the rules refuse here, and the number of the refusal.
    fn refusable(&mut self) -> Option<(Call, u32)> {
        let far = [0, 1, self.clock, self.plan.deadline, 1 << 62, u64::MAX];
        let any = self.random.pick(&far);
        let count = self.leaves.len() as u64;
        let leaf = self.random.below(count + 2);
        let is_point = |leaf: u64| {
            self.leaves
                .get(leaf as usize)
                .is_some_and(|form| form.point)
        };
        let roll = self.random.below(4);
        let Some(open) = &self.open else {
            return match roll < 2 {
                true => Some((Call::Report(leaf, any), 14)),
                false => Some((Call::End(any), 14)),
            };
        };
        let below = any.min(open.reading.saturating_sub(1));
        let back = open.reading > 0 && self.random.chance(50);
        match roll {
            0 => Some((Call::Release, 12)),
            1 if back => Some((Call::End(below), 16)),
            1 if self.composed.can_end(&open.place) => None,
            1 => Some((Call::End(any.max(open.reading)), 17)),
            _ if !is_point(leaf) => Some((Call::Report(leaf, any), 15)),
            _ if back => Some((Call::Report(leaf, below), 16)),
            _ => {
                let next = self.composed.report(&open.place, leaf as usize);
                let astray = Call::Report(leaf, any.max(open.reading));
                next.is_none().then_some((astray, 17))
            }
        }
    }

    fn stray(&mut self) -> Result<(), Stopped> {
        if !self.random.chance(self.habit.strays) {
            return Ok(());
        }
        let Some((call, number)) = self.refusable() else {
            return Ok(());
        };
        self.met.refused += 1;
        let answer = self.answer(call);
        self.holds(answer == Some(Answer::Refused(number)), || {
            format!("{answer:?} for {call:?}, wanted refusal {number}")
        })?;
        self.others_right(call)
    }
}
