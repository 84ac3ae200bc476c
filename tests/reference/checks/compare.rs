//! Numbers and calls read off the list of all runs against the composed ones,
//! on random small plans.

use reference::calls::{Answer, Controller};
use reference::composed::Composed;
use reference::edition::Edition;
use reference::finals::Finals;
use reference::gen::{self, Random};
use reference::listed::Listed;
use reference::numbers::{listing, Numbers};
use reference::plan::{text, Plan};
use reference::returns::Returns;
use reference::visits::Visits;

use super::tally::Tally;

const PLANS: usize = 12_000;
const MOST_RUNS: usize = 1_000;

fn tables(tally: &mut Tally, plan: &Plan, listed: &Listed, composed: &Composed) {
    let shown = || String::from_utf8_lossy(&text(plan)).into_owned();
    tally.equal(listed.total(), composed.total(), || {
        format!("total, {}", shown())
    });
    let (by_runs, by_forms) = (listed.max_load_total(), composed.max_load_total());
    tally.equal(by_runs, by_forms, || format!("max-load total, {}", shown()));
    let (by_runs, by_forms) = (listed.release_stretch(), composed.release_stretch());
    tally.equal(by_runs, by_forms, || {
        format!("stretch of the release, {}", shown())
    });
    for function in 0..plan.functions.len() {
        let (by_runs, by_forms) = (
            listed.function_total(function),
            composed.function_total(function),
        );
        tally.equal(by_runs, by_forms, || {
            format!("total of function {function}, {}", shown())
        });
        let (by_runs, by_forms) = (
            listed.max_load_function_total(function),
            composed.max_load_function_total(function),
        );
        tally.equal(by_runs, by_forms, || {
            format!("max-load total of function {function}, {}", shown())
        });
    }
    for (_, form) in plan.leaves() {
        let leaf = form.leaf;
        let what = |which: &str| format!("{which} of leaf {leaf}, {}", shown());
        tally.equal(listed.level(leaf), composed.level(leaf), || what("level"));
        tally.equal(listed.turn(leaf), composed.turn(leaf), || what("turn"));
        let (by_runs, by_forms) = (listed.max_load_turn(leaf), composed.max_load_turn(leaf));
        tally.equal(by_runs, by_forms, || what("max-load turn"));
        tally.equal(listed.tail(leaf), composed.tail(leaf), || what("tail"));
        if form.point {
            tally.equal(listed.stretch(leaf), composed.stretch(leaf), || {
                what("stretch")
            });
        }
    }
    tally.equal(listing(listed), listing(composed), || {
        format!("listing, {}", shown())
    });
}

/// A reading at or beside an edge: the last one, the deadline, or the last
/// that still goes on at the next point.
fn reading(random: &mut Random, plan: &Plan, last: u64, turning: u64) -> u64 {
    let near = random.pick(&[last, last, turning, turning, plan.deadline]);
    let step = random.below(3);
    match random.below(40) {
        0 => u64::MAX - random.below(3),
        1 => (1 << 62) + random.below(1 << 10),
        2..=12 => last + random.below(plan.deadline / 4 + 2),
        _ => (near + 1).saturating_sub(step),
    }
}

/// What the calls of one plan met, so that no kind of answer goes untried.
#[derive(Default)]
struct Met {
    /// Each word, and resume at a report apart.
    words: [usize; 6],
    refused: [usize; 18],
    late: usize,
    held: usize,
    deepest: usize,
    finals: Finals,
    visits: Visits,
    returns: Returns,
}

impl Met {
    fn note(&mut self, answer: Answer) {
        match answer {
            Answer::Refused(number) => self.refused[number as usize] += 1,
            Answer::End { word, late } => {
                self.words[word as usize] += 1;
                self.late += usize::from(late);
            }
            Answer::Decision {
                word, margin, late, ..
            } => {
                let kind = if answer.is_return() { 5 } else { word as usize };
                self.words[kind] += 1;
                self.late += usize::from(late);
                self.held += usize::from(margin == reference::calls::LEAST_MARGIN);
            }
        }
    }

    /// Whether each kind of answer of this edition was met.
    fn check(&self, tally: &mut Tally, edition: Edition) {
        let words = match edition {
            Edition::First => &self.words[..5],
            Edition::Second => &self.words[..],
        };
        tally.holds(words.iter().all(|&count| count > 0), || {
            format!("each word is answered: {words:?}")
        });
        for number in 12..=17 {
            tally.holds(self.refused[number] > 0, || {
                format!("refusal {number} is met")
            });
        }
        tally.holds(self.deepest >= 5, || {
            "points at level 5 are met".to_string()
        });
        tally.holds(self.late > 0 && self.held > 0, || {
            "late marks and held margins are met".to_string()
        });
        self.check_decisions(tally, edition);
    }

    /// Whether each kind of decision was met often.
    fn check_decisions(&self, tally: &mut Tally, edition: Edition) {
        println!("  final decisions: {}", self.finals);
        tally.holds(self.finals.met(edition, edition.share(500)), || {
            "each answer of a final decision is met often".to_string()
        });
        println!(
            "  visits with a smaller stretch than their point: {}",
            self.visits
        );
        tally.holds(self.visits.met(edition, edition.share(40)), || {
            "each answer at such a visit is met often".to_string()
        });
        println!("  while suspended: {}", self.returns);
        let twice = edition == Edition::First || self.returns.twice(50, 50);
        let returns = self.returns.met(edition, 100) && twice;
        tally.holds(returns, || {
            "each answer while suspended is met often".to_string()
        });
    }
}

/// Both ways on the same calls.
struct Both<'a> {
    listed: &'a Listed<'a>,
    composed: &'a Composed<'a>,
    by_runs: Controller<'a, Listed<'a>>,
    by_forms: Controller<'a, Composed<'a>>,
    /// The calls made.
    told: Vec<String>,
}

impl<'a> Both<'a> {
    fn new(listed: &'a Listed<'a>, composed: &'a Composed<'a>) -> Both<'a> {
        Both {
            listed,
            composed,
            by_runs: Controller::new(listed),
            by_forms: Controller::new(composed),
            told: Vec::new(),
        }
    }

    fn release(&mut self) -> (Answer, Answer) {
        self.told.push("release".to_string());
        (self.by_runs.release(), self.by_forms.release())
    }

    fn report(&mut self, number: u64, at: u64) -> (Answer, Answer) {
        self.told.push(format!("report {number} {at}"));
        let first = self.by_runs.report(number, at);
        (first, self.by_forms.report(number, at))
    }

    fn end(&mut self, at: u64) -> (Answer, Answer) {
        self.told.push(format!("end {at}"));
        (self.by_runs.end(at), self.by_forms.end(at))
    }

    /// The number of a point that can come next, or, where `stray` asks for it
    /// or none can, any number.
    fn number(&self, random: &mut Random, stray: bool) -> u64 {
        let next = self.by_runs.place();
        let next = next.map(|place| self.listed.next_points(place));
        let next: Vec<usize> = next.unwrap_or_default().into_iter().collect();
        if next.is_empty() || stray {
            return random.below(self.listed.plan().leaves().len() as u64 + 2);
        }
        random.pick(&next) as u64
    }

    /// A call that mostly goes on with the run; its two answers.
    fn call(&mut self, random: &mut Random) -> (Answer, Answer) {
        let plan = self.listed.plan();
        let last = self.by_runs.last_reading();
        match random.below(12) {
            0 => self.release(),
            1 => self.end(reading(random, plan, last, plan.deadline)),
            _ if !self.by_runs.is_running() && random.chance(90) => self.release(),
            roll => {
                let number = self.number(random, roll == 2);
                let turning = self.by_forms.turning(number).unwrap_or(0).max(0);
                self.report(number, reading(random, plan, last, turning as u64))
            }
        }
    }

    fn shown(&self) -> String {
        let plan = text(self.listed.plan());
        format!("{:?} on {}", self.told, String::from_utf8_lossy(&plan))
    }

    fn compare_states(&self, tally: &mut Tally) {
        let (runs, forms) = (&self.by_runs, &self.by_forms);
        tally.equal(
            (runs.is_running(), runs.suspended(), runs.last_reading()),
            (forms.is_running(), forms.suspended(), forms.last_reading()),
            || self.shown(),
        );
        tally.equal(runs.times(), forms.times(), || self.shown());
    }

    /// Compares where the run stands; gives its level, 0 where none is running.
    fn compare_places(&self, tally: &mut Tally) -> usize {
        let (listed, composed) = (self.listed, self.composed);
        let (Some(history), Some(place)) = (self.by_runs.place(), self.by_forms.place()) else {
            return 0;
        };
        let what = || self.shown();
        tally.equal(listed.remaining(history), composed.remaining(place), what);
        let (by_runs, by_forms) = (listed.next_points(history), composed.next_points(place));
        tally.equal(by_runs, by_forms, what);
        tally.equal(listed.can_end(history), composed.can_end(place), what);
        tally.equal(listed.is_final(history), composed.is_final(place), what);
        tally.equal(listed.stretch_at(history), composed.stretch_at(place), what);
        let level = composed.level_in_run(place);
        tally.equal(listed.level_in_run(history), level, what);
        level
    }
}

/// Forty calls from a fresh state.
fn histories(
    tally: &mut Tally,
    random: &mut Random,
    listed: &Listed,
    composed: &Composed,
    met: &mut Met,
) {
    let mut both = Both::new(listed, composed);
    for _ in 0..40 {
        let (first, second) = both.call(random);
        met.note(first);
        if let Some(history) = both.by_runs.place() {
            met.finals.note(listed, history, first);
            met.visits.note(listed, history, first);
            met.returns.note(listed, history, first);
        }
        tally.equal(first.line(), second.line(), || both.shown());
        both.compare_states(tally);
        met.deepest = met.deepest.max(both.compare_places(tally));
    }
}

fn of_edition(tally: &mut Tally, edition: Edition) {
    let mut random = Random::new(21);
    let mut met = Met::default();
    let (mut plans, mut runs, mut rich) = (0, 0, 0);
    let tried = edition.share(PLANS);
    for _ in 0..tried {
        let plan = gen::small_plan(&mut random, edition);
        let Some(listed) = Listed::new(&plan, MOST_RUNS) else {
            continue;
        };
        plans += 1;
        runs += listed.run_count();
        rich += usize::from(listed.run_count() >= 20);
        let composed = Composed::new(&plan);
        tables(tally, &plan, &listed, &composed);
        histories(tally, &mut random, &listed, &composed, &mut met);
    }
    println!("  {edition}: {plans} plans, {rich} of them with 20 runs or more");
    println!("  {runs} runs listed");
    tally.holds(plans > tried / 2 && rich > tried / 10, || {
        "plans to compare".to_string()
    });
    met.check(tally, edition);
}

pub fn check(tally: &mut Tally) {
    for edition in Edition::BOTH {
        of_edition(tally, edition);
    }
}
