//! Worst cases: every run of a small plan with every visit at its bound, its M while
//! the others run and its C while they are suspended, T for each stop and U for each
//! return. No run ends behind D. The deadlines are those at which a final decision (02,
//! L3) turns: with margin 0 the others go on or come back (02, L7) and some run ends at D,
//! also where this visit's stretch is not the largest of its point (02, L6); with D a tick
//! less they are suspended or stay so.

use std::collections::{BTreeMap, BTreeSet};

use super::calls::{Answer, Call, Controller, Word};
use super::composed::Composed;
use super::edition::Edition;
use super::gen::{self, Random};
use super::listed::Listed;
use super::numbers::Numbers;
use super::plan::{text, Plan, MOST_DEADLINE};
use super::runs;

/// The most runs of a plan that are played, and the most deadlines that it is given.
const MOST_RUNS: usize = 100;
const MOST_DEADLINES: usize = 4;

/// How often deadlines with a return are looked for, and how many are tried from one to
/// the next.
const SEARCHES: usize = 3;
const STEPS: usize = 4;

/// Calls on the state that the last one left.
pub type Calls<'a> = dyn FnMut(Call) -> Option<Answer> + 'a;

/// Makes the calls on a plan's table ready, the first on a fresh state, and hands them on.
pub type Ready<'a> = &'a dyn Fn(&Plan, &mut dyn FnMut(&mut Calls));

/// Counts whether something holds, and says what where it does not.
pub type Holds<'a> = &'a mut dyn FnMut(bool, &dyn Fn() -> String);

/// What was met, so that nothing goes untried.
#[derive(Default)]
struct Met {
    plans: usize,
    runs: usize,
    /// Final decisions that go on with margin 0, of releases and of reports.
    releases: usize,
    reports: usize,
    /// Of these, those whose visit has a smaller stretch than others of its point.
    shorter: usize,
    /// Those that are suspended with D a tick less.
    tick_less: usize,
    /// Final decisions that come back with margin 0, and those that stay with D a tick
    /// less.
    returns: usize,
    stays: usize,
    /// Runs with two returns.
    twice: usize,
}

impl Met {
    fn print(&self, edition: Edition) {
        println!("  {edition}: {} runs of {} plans", self.runs, self.plans);
        let (releases, reports) = (self.releases, self.reports);
        println!("  final decisions with margin 0: {releases} releases, {reports} reports");
        println!(
            "    each with an end at D, {} of shorter visits",
            self.shorter
        );
        println!("    suspended with D a tick less: {}", self.tick_less);
        let (returns, stays) = (self.returns, self.stays);
        println!("  final returns with margin 0, each with an end at D: {returns}");
        println!("    suspended still with D a tick less: {stays}");
        println!("  runs with two returns: {}", self.twice);
    }

    /// Whether each kind of final decision was met at least so often, and in edition 2
    /// returns, two in a run among them, as often as the others in edition 1.
    fn met(&self, edition: Edition, least: usize) -> bool {
        let decisions = [self.releases, self.reports, self.shorter, self.tick_less];
        let decided = decisions.iter().all(|&count| count >= edition.share(least));
        let returns = [self.returns, self.stays, self.twice];
        let returned = returns.iter().all(|&count| count >= least);
        decided && (edition == Edition::First || returned)
    }
}

/// A run: its leaves, its reports, and its max-load sums up to the last report, or the
/// release, and from there on.
struct Outline {
    leaves: Vec<usize>,
    history: Vec<usize>,
    before: u64,
    behind: u64,
}

impl Outline {
    fn new(plan: &Plan, leaves: Vec<usize>) -> Outline {
        let forms = plan.leaves();
        let is_point = |leaf: &usize| forms[*leaf].1.point;
        let loaded = |part: &[usize]| part.iter().map(|&leaf| forms[leaf].1.loaded).sum();
        let last = leaves.iter().rposition(is_point).unwrap_or(0);
        Outline {
            history: leaves.iter().copied().filter(is_point).collect(),
            before: loaded(&leaves[..last]),
            behind: loaded(&leaves[last..]),
            leaves,
        }
    }
}

/// A decision as it was answered, with its reading.
struct Decided {
    word: Word,
    margin: i64,
    reading: u64,
}

/// The decisions of a run, the last one apart, and the reading of its end.
struct Played {
    earlier: Vec<Decided>,
    last: Decided,
    end: u64,
}

impl Played {
    /// Whether the others are suspended before the last decision.
    fn suspended(&self) -> bool {
        let before = self.earlier.last();
        before.is_some_and(|decided| !decided.word.others_run())
    }

    fn returns(&self) -> usize {
        let decisions = self.earlier.iter().chain([&self.last]);
        decisions
            .filter(|decided| decided.word == Word::Resume)
            .count()
    }
}

/// A run under way.
struct World<'a, 'b> {
    plan: &'a Plan,
    calls: &'a mut Calls<'b>,
    clock: u64,
    others: bool,
}

impl World<'_, '_> {
    /// The answer to a call; in words what is wrong where it is refused or late.
    fn answer(&mut self, call: Call) -> Result<Answer, String> {
        let answer = (self.calls)(call);
        let in_time = match answer {
            Some(Answer::Decision { late, .. } | Answer::End { late, .. }) => !late,
            _ => false,
        };
        let fault = || format!("{answer:?} for {call:?}");
        let right = in_time && self.clock <= self.plan.deadline;
        answer.filter(|_| right).ok_or_else(fault)
    }

    fn decide(&mut self, call: Call) -> Result<Decided, String> {
        let reading = self.clock;
        let answer = self.answer(call)?;
        let Answer::Decision { word, margin, .. } = answer else {
            return Err(format!("{answer:?} for {call:?}"));
        };
        self.others = word.others_after(self.others);
        self.clock += word.switching(self.plan);
        Ok(Decided {
            word,
            margin,
            reading,
        })
    }

    fn play(mut self, leaves: &[usize]) -> Result<Played, String> {
        let forms = self.plan.leaves();
        let mut earlier = Vec::new();
        let mut last = self.decide(Call::Release)?;
        for &leaf in leaves {
            let form = forms[leaf].1;
            if form.point {
                let next = self.decide(Call::Report(leaf as u64, self.clock))?;
                earlier.push(std::mem::replace(&mut last, next));
            }
            self.clock += match self.others {
                true => form.loaded,
                false => form.isolated,
            };
        }
        self.answer(Call::End(self.clock))?;
        Ok(Played {
            earlier,
            last,
            end: self.clock,
        })
    }
}

/// A plan with all its runs.
struct Runs<'a> {
    plan: &'a Plan,
    listed: Listed<'a>,
    outlines: Vec<Outline>,
}

impl<'a> Runs<'a> {
    /// None where they are too many.
    fn new(plan: &'a Plan) -> Option<Runs<'a>> {
        let runs = runs::of_plan(plan, MOST_RUNS)?.into_iter();
        let leaves = runs.map(|run| run.iter().map(|visit| visit.leaf).collect());
        Some(Runs {
            plan,
            listed: Listed::new(plan, MOST_RUNS)?,
            outlines: leaves.map(|leaves| Outline::new(plan, leaves)).collect(),
        })
    }

    fn shown(&self) -> String {
        String::from_utf8_lossy(&text(self.plan)).into_owned()
    }

    fn least_deadline(&self) -> u64 {
        (self.listed.total() + self.plan.switch).max(1)
    }

    fn fits(&self, deadline: u64) -> bool {
        (self.least_deadline()..=MOST_DEADLINE).contains(&deadline)
    }

    /// What the final decisions need at which the others can come back with this deadline:
    /// each the deadline with which it has margin 0, if all goes as with this one.
    fn return_deadlines(&self, deadline: u64) -> Vec<u64> {
        let all = self.played(deadline, &on_reference).unwrap_or_default();
        let played = self.outlines.iter().zip(all);
        let returns = played.filter(|(outline, played)| {
            played.suspended() && self.listed.is_final(&outline.history)
        });
        returns
            .map(|(outline, played)| {
                let stretch = self.listed.stretch_at(&outline.history);
                played.last.reading + stretch + self.plan.cost_of_return(true)
            })
            .filter(|&needed| self.fits(needed))
            .collect()
    }

    /// A deadline with which a final decision comes back with margin 0, if one is found.
    fn search(&self, random: &mut Random) -> Option<u64> {
        let most = self.listed.max_load_total() + self.plan.cost_of_return(true);
        let mut deadline = self.least_deadline() + random.below(most + 1);
        for _ in 0..STEPS {
            let needed = self.return_deadlines(deadline);
            if needed.is_empty() || needed.contains(&deadline) {
                return needed.contains(&deadline).then_some(deadline);
            }
            deadline = random.pick(&needed);
        }
        None
    }

    /// Some of them; an edition 1 plan has none.
    fn returning(&self, random: &mut Random) -> BTreeSet<u64> {
        let searches = if self.plan.resume.is_some() {
            SEARCHES
        } else {
            0
        };
        (0..searches).filter_map(|_| self.search(random)).collect()
    }

    /// Some deadlines with which a final decision has margin 0: if the others run so far,
    /// and where they come back.
    fn deadlines(&self, random: &mut Random) -> Vec<u64> {
        let is_final = |outline: &&Outline| self.listed.is_final(&outline.history);
        let turning = |outline: &Outline| outline.before + self.listed.stretch_at(&outline.history);
        let is_shorter = |outline: &&Outline| {
            let history = &outline.history;
            self.listed.stretch_at(history) < self.listed.stretch_of_last(history)
        };
        let few = |random: &mut Random, all: BTreeSet<u64>, most: usize| {
            let mut all: Vec<u64> = all.into_iter().filter(|&at| self.fits(at)).collect();
            while all.len() > most {
                all.remove(random.index(all.len()));
            }
            all
        };
        let finals = || self.outlines.iter().filter(is_final);
        let of_shorter = finals().filter(is_shorter).map(turning).collect();
        let mut some = few(random, of_shorter, MOST_DEADLINES / 2);
        let others = finals().map(turning).filter(|at| !some.contains(at));
        let others = few(random, others.collect(), MOST_DEADLINES - some.len());
        some.extend(others);
        some.extend(self.returning(random));
        some
    }

    /// The most that a run takes behind this history, which is all of its reports.
    fn own_stretch(&self, history: &[usize]) -> u64 {
        let with_history = self.outlines.iter().filter(|run| run.history == history);
        with_history.map(|run| run.behind).max().unwrap_or(0)
    }

    /// Every run with this deadline, run after run on one state; or in words what goes
    /// wrong first.
    fn played(&self, deadline: u64, ready: Ready) -> Result<Vec<Played>, String> {
        let plan = Plan {
            deadline,
            ..self.plan.clone()
        };
        let mut all = Err("no run is played".to_string());
        ready(&plan, &mut |calls| {
            let runs = self.outlines.iter().map(|outline| {
                let world = World {
                    plan: &plan,
                    calls: &mut *calls,
                    clock: 0,
                    others: true,
                };
                world.play(&outline.leaves)
            });
            all = runs.collect();
        });
        all
    }
}

/// All runs with one deadline, as they were played.
struct Trial<'a> {
    runs: &'a Runs<'a>,
    deadline: u64,
    played: Vec<Played>,
}

impl<'a> Trial<'a> {
    /// None where a run goes wrong.
    fn new(runs: &'a Runs, deadline: u64, ready: Ready, holds: Holds) -> Option<Trial<'a>> {
        let played = runs.played(deadline, ready);
        let wrong = played.as_ref().err();
        holds(wrong.is_none(), &|| {
            format!("{wrong:?} with D {deadline} on\n{}", runs.shown())
        });
        Some(Trial {
            runs,
            deadline,
            played: played.ok()?,
        })
    }

    /// The runs whose last decision is final and needs all that is left, where the others
    /// run or can come back.
    fn turning(&self) -> Vec<usize> {
        let Runs {
            plan,
            listed,
            outlines,
        } = self.runs;
        let turns = |&at: &usize| {
            let (history, played) = (&outlines[at].history, &self.played[at]);
            let suspended = played.suspended();
            let needed = listed.stretch_at(history) + plan.cost_of_return(suspended);
            let can_run = !suspended || plan.resume.is_some();
            let needs_all = played.last.reading + needed == self.deadline;
            needs_all && can_run && listed.is_final(history)
        };
        (0..outlines.len()).filter(turns).collect()
    }

    fn shown(&self, history: &[usize], what: &str) -> String {
        let (deadline, plan) = (self.deadline, self.runs.shown());
        format!("{what} after {history:?} with D {deadline} on\n{plan}")
    }

    /// Holds the last decision of a run to the word that a margin of 0 or of -1 has; not by
    /// `Word::of`, which the reference's controller uses.
    fn decides(&self, at: usize, margin: i64, holds: Holds) {
        let wanted = match (self.played[at].suspended(), margin >= 0) {
            (false, true) => Word::Go,
            (false, false) => Word::Suspend,
            (true, true) => Word::Resume,
            (true, false) => Word::Stay,
        };
        let Decided {
            word,
            margin: found,
            ..
        } = self.played[at].last;
        holds((word, found) == (wanted, margin), &|| {
            let history = &self.runs.outlines[at].history;
            self.shown(history, &format!("{word:?} {found}"))
        });
    }

    /// The latest end of these runs for each history, last reading, and whether the others
    /// are suspended before it.
    fn latest_ends(&self, runs: &[usize]) -> BTreeMap<(&[usize], u64, bool), u64> {
        let mut latest = BTreeMap::new();
        for &at in runs {
            let (outline, played) = (&self.runs.outlines[at], &self.played[at]);
            let history = outline.history.as_slice();
            let key = (history, played.last.reading, played.suspended());
            let end = latest.entry(key).or_insert(played.end);
            *end = played.end.max(*end);
        }
        latest
    }

    /// After a final decision with margin 0 some run takes all that its visit can, up to D.
    fn ends(&self, turning: &[usize], met: &mut Met, holds: Holds) {
        for ((history, reading, suspended), end) in self.latest_ends(turning) {
            let own = self.runs.own_stretch(history);
            let taken = own + self.runs.plan.cost_of_return(suspended);
            let right = end == reading + taken && end == self.deadline;
            holds(right, &|| self.shown(history, &format!("end at {end}")));
            match (suspended, history.is_empty()) {
                (true, _) => met.returns += 1,
                (false, true) => met.releases += 1,
                (false, false) => met.reports += 1,
            }
            let of_point = self.runs.listed.stretch_of_last(&history.to_vec());
            met.shorter += usize::from(own < of_point);
        }
    }
}

/// A plan that takes at most a tick a visit alone, and none for the switch: earlier
/// decisions go on with the deadlines at which the final ones turn.
fn light_plan(random: &mut Random, edition: Edition) -> Plan {
    let mut plan = gen::small_or_calling_plan(random, edition);
    plan.switch = 0;
    plan.change_all(|form| form.isolated = form.isolated.min(1));
    plan
}

/// Makes calls on the reference's own controller ready.
pub fn on_reference(plan: &Plan, play: &mut dyn FnMut(&mut Calls)) {
    let composed = Composed::new(plan);
    let mut controller = Controller::new(&composed);
    play(&mut |call| Some(controller.call(call)));
}

/// Plays the worst cases of so many random plans of edition 1, and of its share in edition
/// 2, with each kind of final decision met at least so often.
pub fn judge_random(seed: u64, plans: usize, least: usize, ready: Ready, holds: Holds) {
    for edition in Edition::BOTH {
        let mut random = Random::new(seed);
        let mut met = Met::default();
        while met.plans < edition.share(plans) {
            let plan = match random.chance(50) {
                true => light_plan(&mut random, edition),
                false => gen::small_or_calling_plan(&mut random, edition),
            };
            judge(&mut random, &plan, &mut met, ready, holds);
        }
        met.print(edition);
        holds(met.met(edition, least), &|| {
            format!("each kind of final decision is met often in {edition}")
        });
    }
}

/// Plays the worst cases of a plan, if it has few runs.
fn judge(random: &mut Random, plan: &Plan, met: &mut Met, ready: Ready, holds: Holds) {
    let Some(runs) = Runs::new(plan) else {
        return;
    };
    met.plans += 1;
    for deadline in runs.deadlines(random) {
        let Some(trial) = Trial::new(&runs, deadline, ready, holds) else {
            continue;
        };
        met.runs += runs.outlines.len();
        let returned = trial.played.iter().any(|run| run.returns() > 0);
        holds(plan.resume.is_some() || !returned, &|| {
            trial.shown(&[], "a return in edition 1")
        });
        met.twice += trial.played.iter().filter(|run| run.returns() >= 2).count();
        let turning = trial.turning();
        for &at in &turning {
            trial.decides(at, 0, holds);
        }
        trial.ends(&turning, met, holds);
        tick_less(&trial, &turning, met, ready, holds);
    }
}

/// The same with D a tick less: the final decision suspends or stays, where all before it
/// are as they were.
fn tick_less(trial: &Trial, turning: &[usize], met: &mut Met, ready: Ready, holds: Holds) {
    let deadline = trial.deadline - 1;
    if !trial.runs.fits(deadline) {
        return;
    }
    let Some(less) = Trial::new(trial.runs, deadline, ready, holds) else {
        return;
    };
    for &at in turning {
        let mut earlier = trial.played[at].earlier.iter();
        if earlier.all(|decided| decided.margin != 0) {
            less.decides(at, -1, holds);
            match trial.played[at].suspended() {
                true => met.stays += 1,
                false => met.tick_less += 1,
            }
        }
    }
}
