//! A faster run shares no less (02, L8): random pairs of sequences of reports with the same
//! points, the second with no reading later than the first's, and what both are answered
//! held to the document's sentence. Whether the others run is told by the words alone. Some
//! sequences follow an earlier release and its end, and refused calls between their own are
//! left out.

use std::fmt;

use super::calls::{Answer, Call, Controller, Word};
use super::gen::{self, Random};
use super::numbers::Numbers;
use super::plan::{text, Plan};
use super::worked::call_of;
use super::worked_faster::WorkedPair;
use super::worst::Holds;

/// How many first sequences a plan has, and how many second ones each of them.
const FIRSTS: usize = 2;
const SECONDS: usize = 3;

/// How often, in a hundred, a second sequence is made where it is the same as the first, and
/// how often a sequence follows an earlier release and its end.
const SAME: u64 = 10;
const BEHIND_END: u64 = 20;

/// Makes calls one after the other, the first on a fresh state.
pub type Answers<'a> = &'a dyn Fn(&[Call]) -> Vec<Option<Answer>>;

/// Calls one after the other, each with the number that it is to be refused by, if it is.
type Log = Vec<(Call, Option<u32>)>;

/// The same calls, each report with the reading that is picked for it by a controller that
/// was given those before.
fn with_readings<N: Numbers>(
    numbers: &N,
    calls: &[Call],
    mut pick: impl FnMut(&Controller<N>, u64, u64) -> u64,
) -> Vec<Call> {
    let mut controller = Controller::new(numbers);
    let picked = calls.iter().map(|&call| {
        let call = match call {
            Call::Report(point, reading) => Call::Report(point, pick(&controller, point, reading)),
            Call::Release | Call::End(_) => call,
        };
        controller.call(call);
        call
    });
    picked.collect()
}

/// The last reading with which the others run once this point is reported next, or with
/// which the margin is 0 where they stay suspended, or one beside it.
fn turning<N: Numbers>(random: &mut Random, controller: &Controller<N>, point: u64) -> u64 {
    random.beside(controller.turning(point).expect("a point of the run"))
}

/// Readings for the calls of a first sequence, mostly where decisions turn or a small step
/// on, now and then far beyond.
fn slower<N: Numbers>(random: &mut Random, numbers: &N, calls: &[Call]) -> Vec<Call> {
    let near = random.pick(&[30, 60, 90]);
    let far = random.pick(&[0, 0, 0, 4]);
    let step = numbers.plan().deadline / 16 + 2;
    with_readings(numbers, calls, |controller, point, _| {
        let last = controller.last_reading();
        let reading = match random.below(100) {
            roll if roll < far => random.pick(&[1 << 62, 1 << 63, u64::MAX]),
            roll if roll < near => turning(random, controller, point),
            roll if roll < 95 => last.saturating_add(random.below(step)),
            _ => last,
        };
        reading.max(last)
    })
}

/// The same calls with readings that are no later: the same, a little lower, where the
/// second's own decisions turn, or anything from its last reading on.
fn faster<N: Numbers>(random: &mut Random, numbers: &N, first: &[Call]) -> Vec<Call> {
    let equal = random.pick(&[0, 20, 60]);
    let second = with_readings(numbers, first, |controller, point, most| {
        let last = controller.last_reading();
        let reading = match random.below(3) {
            _ if random.chance(equal) => most,
            0 => most.saturating_sub(1 + random.below(3)),
            1 => turning(random, controller, point),
            _ => last + random.below((most - last).saturating_add(1)),
        };
        reading.clamp(last, most)
    });
    assert!(is_faster(first, &second), "{second:?} after {first:?}");
    second
}

/// Whether the second calls have the points of the first with no later reading.
fn is_faster(first: &[Call], second: &[Call]) -> bool {
    let mut calls = first.iter().zip(second);
    let no_later = calls.all(|calls| match calls {
        (Call::Report(point, most), Call::Report(other, reading)) => {
            point == other && reading <= most
        }
        (first, second) => first == second,
    });
    first.len() == second.len() && no_later
}

/// The release and the reports of one random run, with no readings yet; None where the run
/// is too long or has no report.
fn some_calls(random: &mut Random, plan: &Plan, long: usize) -> Option<Vec<Call>> {
    let leaves = plan.leaves();
    let run = gen::random_run(random, plan, long)?.into_iter();
    let reports = run.filter(|&leaf| leaves[leaf].1.point);
    let reports = reports.map(|leaf| Call::Report(leaf as u64, 0));
    let calls: Vec<Call> = [Call::Release].into_iter().chain(reports).collect();
    (calls.len() > 1).then_some(calls)
}

/// A report that is refused next, and the number of its refusal; None where the one that is
/// picked would be accepted.
fn refused<N: Numbers>(
    random: &mut Random,
    numbers: &N,
    controller: &mut Controller<N>,
) -> Option<(Call, Option<u32>)> {
    let leaf = random.below(numbers.plan().leaves().len() as u64 + 1);
    let last = controller.last_reading();
    let reading = match controller.turning(leaf) {
        None => last,
        Some(_) => last.checked_sub(1)?,
    };
    let call = Call::Report(leaf, reading);
    match controller.call(call) {
        Answer::Refused(number) => Some((call, Some(number))),
        answer => panic!("{answer:?} for {call:?}"),
    }
}

/// A log with these calls from its last release on, now and then behind earlier ones and
/// their end, and with reports between that are refused.
fn logged<N: Numbers>(random: &mut Random, numbers: &N, earlier: &[Call], calls: &[Call]) -> Log {
    let mut before = Vec::new();
    if random.chance(BEHIND_END) {
        before.extend_from_slice(earlier);
        before.push(Call::End(u64::MAX));
    }
    let strays = random.pick(&[0, 0, 20]);
    let mut controller = Controller::new(numbers);
    let mut log = Log::new();
    for &call in before.iter().chain(calls) {
        controller.call(call);
        log.push((call, None));
        if random.chance(strays) {
            log.extend(refused(random, numbers, &mut controller));
        }
    }
    log
}

/// What an accepted release or report is answered, and whether the others run behind it.
#[derive(Debug)]
struct Behind {
    word: Word,
    margin: i64,
    others: bool,
}

/// A log, its accepted calls from the last release on, and what is behind each of them.
#[derive(Debug)]
struct Sequence {
    log: Log,
    calls: Vec<Call>,
    behind: Vec<Behind>,
}

impl Sequence {
    /// By a world in which the others run before each release; in words which call of the log
    /// is not answered as it is to be, if one is not.
    fn new(log: Log, answers: Answers) -> Result<Sequence, String> {
        let all: Vec<Call> = log.iter().map(|&(call, _)| call).collect();
        let (mut calls, mut behind) = (Vec::new(), Vec::<Behind>::new());
        for (&(call, refusal), answer) in log.iter().zip(answers(&all)) {
            match (answer, refusal) {
                (Some(Answer::Decision { word, margin, .. }), None) => {
                    if call == Call::Release {
                        calls.clear();
                        behind.clear();
                    }
                    let before = behind.last().is_none_or(|last| last.others);
                    let others = word.others_after(before);
                    calls.push(call);
                    behind.push(Behind {
                        word,
                        margin,
                        others,
                    });
                }
                (Some(Answer::End { .. }), None) => {}
                (Some(Answer::Refused(found)), Some(number)) if found == number => {}
                _ => return Err(format!("{answer:?} for {call:?} of {log:?}")),
            }
        }
        Ok(Sequence { log, calls, behind })
    }

    /// After how many calls the others run.
    fn running(&self) -> usize {
        let running = self.behind.iter().filter(|behind| behind.others);
        running.count()
    }

    /// Whether a call of the log is refused.
    fn has_refusal(&self) -> bool {
        self.log.iter().any(|(_, refusal)| refusal.is_some())
    }

    /// Whether the release follows an end.
    fn is_behind_end(&self) -> bool {
        let mut calls = self.log.iter().map(|(call, _)| call);
        calls.any(|call| matches!(call, Call::End(_)))
    }
}

/// Two sequences on one plan.
struct Pair<'a> {
    first: &'a Sequence,
    second: &'a Sequence,
}

impl Pair<'_> {
    /// Whether the others run after this call of the first and are suspended after that of
    /// the second.
    fn shares_less_at(&self, [first, second]: [usize; 2]) -> bool {
        self.first.behind[first].others && !self.second.behind[second].others
    }

    /// The first place at which the second, which has as many calls, shares less, if there
    /// is one.
    fn shares_less(&self) -> Option<usize> {
        let mut places = 0..self.first.calls.len();
        places.find(|&at| self.shares_less_at([at, at]))
    }

    /// Of which kinds the pair is.
    fn kinds(&self) -> [bool; OF_PAIRS] {
        let (first, second) = (self.first, self.second);
        let mut words = first.behind.iter().map(|behind| behind.word);
        [
            words.any(|word| word == Word::Resume),
            first.calls != second.calls,
            second.is_behind_end(),
            second.has_refusal(),
        ]
    }

    /// Of which kinds a place of it is.
    fn kinds_at(&self, at: usize) -> [bool; OF_PLACES] {
        let (call, other) = (self.first.calls[at], self.second.calls[at]);
        let (first, second) = (&self.first.behind[at], &self.second.behind[at]);
        let others = [first.others, second.others];
        let words = [first.word, second.word];
        let same = call == other;
        [
            others == [true, true],
            others == [false, true],
            others == [false, false],
            others == [false, false] && call == Call::Release,
            words == [Word::Stay, Word::Go],
            words == [Word::Stay, Word::Resume],
            words == [Word::Stay, Word::Suspend] && same,
            words == [Word::Resume, Word::Go] && same,
            second.margin == 0,
        ]
    }
}

/// How many kinds of places and of pairs are counted.
const OF_PLACES: usize = 9;
const OF_PAIRS: usize = 4;
pub const KINDS: usize = OF_PLACES + OF_PAIRS;

/// The kinds in words, those of pairs last.
const NAMES: [&str; KINDS] = [
    "the others run in both",
    "suspended in the first alone",
    "suspended in both",
    "suspended at release",
    "the first stays, the second goes",
    "the first stays, the second resumes",
    "the first stays, the second suspends at the same reading",
    "the first resumes, the second goes at the same reading",
    "the second's margin is 0",
    "pairs: the first comes back",
    "pairs: a reading of the second is lower",
    "pairs: the second's release follows an end",
    "pairs: a call in the second's log is refused",
];

/// What plans and their pairs met, so that nothing goes untried.
#[derive(Default)]
pub struct Met {
    /// Plans with an accepted release.
    pub plans: usize,
    pairs: usize,
    of_places: [usize; OF_PLACES],
    of_pairs: [usize; OF_PAIRS],
}

/// Counts each kind that something is of.
fn count<const MANY: usize>(counts: &mut [usize; MANY], kinds: [bool; MANY]) {
    for (count, is_kind) in counts.iter_mut().zip(kinds) {
        *count += usize::from(is_kind);
    }
}

impl Met {
    /// Counts a pair and its places.
    fn note(&mut self, pair: &Pair) {
        self.pairs += 1;
        count(&mut self.of_pairs, pair.kinds());
        for at in 0..pair.first.calls.len() {
            count(&mut self.of_places, pair.kinds_at(at));
        }
    }

    /// How often each kind was met, with its name.
    fn counts(&self) -> impl Iterator<Item = (&'static str, usize)> {
        let counts = self.of_places.into_iter().chain(self.of_pairs);
        NAMES.into_iter().zip(counts)
    }

    /// Holds how often each kind was met to how often it is to be; 0 where it cannot be.
    pub fn all_met(&self, least: [usize; KINDS], holds: Holds) {
        for ((name, count), least) in self.counts().zip(least) {
            match least {
                0 => holds(count == 0, &|| format!("{name}: {count}, never to be met")),
                _ => holds(count >= least, &|| {
                    format!("{name}: {count}, at least {least}")
                }),
            }
        }
    }
}

impl fmt::Display for Met {
    fn fmt(&self, into: &mut fmt::Formatter) -> fmt::Result {
        write!(into, "{} pairs on {} plans", self.pairs, self.plans)?;
        for (name, count) in self.counts() {
            write!(into, "\n    {name}: {count}")?;
        }
        Ok(())
    }
}

/// The sequence of a log on a plan; each of its calls must be answered as it is to be.
fn made(plan: &Plan, log: Log, answers: Answers, holds: Holds) -> Option<Sequence> {
    let sequence = Sequence::new(log, answers);
    holds(sequence.is_ok(), &|| {
        let (fault, plan) = (sequence.as_ref().err(), text(plan));
        format!("{fault:?} on\n{}", String::from_utf8_lossy(&plan))
    });
    sequence.ok()
}

/// Holds a pair on a plan to the sentence.
fn judge_pair(plan: &Plan, pair: &Pair, met: &mut Met, holds: Holds) {
    let less = pair.shares_less();
    holds(less.is_none(), &|| {
        let (first, second, plan) = (pair.first, pair.second, text(plan));
        let plan = String::from_utf8_lossy(&plan);
        format!(
            "the others run in the first alone after {less:?}\nfirst {first:?}\n\
            second {second:?}\non\n{plan}"
        )
    });
    met.note(pair);
}

/// Pairs on a plan, by runs in which every loop is left once so many visits were made; none
/// where it has no accepted release. The first and the second sequences are answered apart.
pub fn judge<N: Numbers>(
    random: &mut Random,
    numbers: &N,
    long: usize,
    met: &mut Met,
    [of_first, of_second]: [Answers; 2],
    holds: Holds,
) {
    let plan = numbers.plan();
    if numbers.total() + plan.switch > plan.deadline {
        return;
    }
    met.plans += 1;
    for _ in 0..FIRSTS {
        let Some(run) = some_calls(random, plan, long) else {
            continue;
        };
        let earlier = slower(random, numbers, &run);
        let calls = slower(random, numbers, &run);
        let log = logged(random, numbers, &earlier, &calls);
        let Some(first) = made(plan, log, of_first, holds) else {
            return;
        };
        for _ in 0..SECONDS {
            let calls = faster(random, numbers, &first.calls);
            if calls == first.calls && !random.chance(SAME) {
                continue;
            }
            let log = logged(random, numbers, &first.calls, &calls);
            let Some(second) = made(plan, log, of_second, holds) else {
                return;
            };
            let (first, second) = (&first, &second);
            judge_pair(plan, &Pair { first, second }, met, holds);
        }
    }
}

/// The calls of a worked list, all accepted.
fn log_of(lines: &[&str]) -> Log {
    let calls = lines.iter().map(|line| {
        let (words, _) = line.split_once(" -> ").expect("a call and its answer");
        (call_of(words), None)
    });
    calls.collect()
}

/// Whether the second call is the report of the same point with an earlier reading.
fn is_earlier(first: Call, second: Call) -> bool {
    match (first, second) {
        (Call::Report(point, most), Call::Report(other, reading)) => {
            point == other && reading < most
        }
        _ => false,
    }
}

/// Holds a worked pair to the sentence or, where it misses a hypothesis, to failing it.
pub fn judge_worked(worked: &WorkedPair, answers: Answers, holds: Holds) {
    let name = worked.name;
    let sequence = |lines| Sequence::new(log_of(lines), answers).ok();
    let [Some(first), Some(second)] = worked.sequences.map(sequence) else {
        return holds(false, &|| format!("{name}: a call is not accepted"));
    };
    let running = [first.running(), second.running()];
    holds(running == worked.running, &|| {
        format!("{name}: the others run after {running:?}")
    });
    let is_faster = is_faster(&first.calls, &second.calls);
    holds(is_faster == worked.broken.is_none(), &|| {
        format!("{name}: whether the second is faster")
    });
    let (first, second) = (&first, &second);
    let pair = Pair { first, second };
    match worked.broken {
        None => {
            let less = pair.shares_less();
            holds(less.is_none(), &|| {
                format!("{name}: the others run in the first alone after {less:?}")
            });
        }
        Some([at, other]) => {
            let earlier = is_earlier(first.calls[at], second.calls[other]);
            holds(earlier && pair.shares_less_at([at, other]), &|| {
                format!("{name}: the same report")
            });
        }
    }
}
