//! Release, report and end with refusals 12 to 17, on numbers found either
//! way. A table here is always that of an accepted plan and a state always one
//! that these calls left, so refusal 11 does not arise.

use super::numbers::{Numbers, Times};
use super::plan::{Plan, MOST_LEVEL};

pub const LEAST_MARGIN: i64 = -(1 << 62);

#[derive(Clone, Copy, Debug, PartialEq, Eq)]
pub enum Word {
    Go,
    Suspend,
    Stay,
    Resume,
    Ended,
}

impl Word {
    pub fn text(self) -> &'static str {
        match self {
            Word::Go => "go",
            Word::Suspend => "suspend",
            Word::Stay => "stay",
            Word::Resume => "resume",
            Word::Ended => "ended",
        }
    }

    /// The word of a decision with this margin. While they are suspended the others come
    /// back in an edition 2 plan alone (02, L7).
    pub fn of(plan: &Plan, suspended: bool, margin: i64) -> Word {
        match (suspended, margin >= 0) {
            (false, true) => Word::Go,
            (false, false) => Word::Suspend,
            (true, true) if plan.resume.is_some() => Word::Resume,
            (true, _) => Word::Stay,
        }
    }

    /// Whether the others run once this is answered.
    pub fn others_run(self) -> bool {
        !matches!(self, Word::Suspend | Word::Stay)
    }

    /// Whether the others run once a world of timed runs hears this: they are suspended
    /// from suspend to resume, whatever is answered between.
    pub fn others_after(self, before: bool) -> bool {
        match self {
            Word::Suspend => false,
            Word::Resume => true,
            Word::Go | Word::Stay | Word::Ended => before,
        }
    }

    /// The most by which the clock moves on once a decision answers this: T after suspend,
    /// U after resume (02, L7).
    pub fn switching(self, plan: &Plan) -> u64 {
        match self {
            Word::Suspend => plan.switch,
            Word::Resume => plan.cost_of_return(true),
            Word::Go | Word::Stay | Word::Ended => 0,
        }
    }
}

#[derive(Clone, Copy, Debug, PartialEq, Eq)]
pub enum Call {
    Release,
    /// A point with a reading.
    Report(u64, u64),
    End(u64),
}

#[derive(Clone, Copy, Debug, PartialEq, Eq)]
pub enum Answer {
    /// Of a release or report.
    Decision {
        word: Word,
        remaining: u64,
        margin: i64,
        late: bool,
    },
    /// Of an end.
    End {
        word: Word,
        late: bool,
    },
    Refused(u32),
}

impl Answer {
    /// Whether the others come back by it at a report (02, L7).
    pub fn is_return(&self) -> bool {
        matches!(
            self,
            Answer::Decision {
                word: Word::Resume,
                ..
            }
        )
    }

    /// The printed answer, without its line feed.
    pub fn line(&self) -> String {
        match *self {
            Answer::Decision {
                word,
                remaining,
                margin,
                late,
            } => {
                format!("{} {remaining} {margin} {}", word.text(), u8::from(late))
            }
            Answer::End { word, late } => format!("{} {}", word.text(), u8::from(late)),
            Answer::Refused(number) => format!("refused {number}"),
        }
    }
}

/// D - elapsed - what is needed, held at -2^62.
pub fn margin(deadline: u64, elapsed: u64, needed: u64) -> i64 {
    let exact = i128::from(deadline) - i128::from(elapsed) - i128::from(needed);
    exact.max(i128::from(LEAST_MARGIN)) as i64
}

/// A run under way.
#[derive(Clone, Debug, PartialEq, Eq)]
struct Running<P> {
    place: P,
    reading: u64,
    suspended: bool,
}

/// What is needed at a place beside the elapsed time.
pub type Rule<N> = fn(&N, &<N as Numbers>::Place) -> u64;

/// A controller; without a run under way it is idle.
pub struct Controller<'a, N: Numbers> {
    numbers: &'a N,
    needed: Rule<N>,
    running: Option<Running<N::Place>>,
}

impl<'a, N: Numbers> Controller<'a, N> {
    pub fn new(numbers: &'a N) -> Controller<'a, N> {
        Controller::by_rule(numbers, N::needed)
    }

    /// One that decides by another rule, for stand-ins.
    pub fn by_rule(numbers: &'a N, needed: Rule<N>) -> Controller<'a, N> {
        Controller {
            numbers,
            needed,
            running: None,
        }
    }

    pub fn is_running(&self) -> bool {
        self.running.is_some()
    }

    pub fn suspended(&self) -> bool {
        self.running.as_ref().is_some_and(|run| run.suspended)
    }

    /// The last accepted reading; 0 where none is.
    pub fn last_reading(&self) -> u64 {
        self.running.as_ref().map_or(0, |run| run.reading)
    }

    pub fn place(&self) -> Option<&N::Place> {
        self.running.as_ref().map(|run| &run.place)
    }

    /// The remaining times of all levels; all 0 where idle.
    pub fn times(&self) -> Times {
        match &self.running {
            None => [0; MOST_LEVEL + 1],
            Some(run) => self.numbers.times(&run.place),
        }
    }

    /// The last reading with which the others run once this point is reported next, or
    /// with which the margin is 0 where they stay suspended; below 0 where there is none;
    /// None where the point cannot come next.
    pub fn turning(&self, point: u64) -> Option<i128> {
        let next = self
            .numbers
            .report(self.place()?, usize::try_from(point).ok()?)?;
        let deadline = self.numbers.plan().deadline;
        Some(i128::from(deadline) - i128::from(self.weighed(&next, self.suspended())))
    }

    /// What a decision at a place sets beside the elapsed time.
    fn weighed(&self, place: &N::Place, suspended: bool) -> u64 {
        (self.needed)(self.numbers, place) + self.numbers.plan().cost_of_return(suspended)
    }

    pub fn call(&mut self, call: Call) -> Answer {
        match call {
            Call::Release => self.release(),
            Call::Report(number, reading) => self.report(number, reading),
            Call::End(reading) => self.end(reading),
        }
    }

    pub fn release(&mut self) -> Answer {
        if self.is_running() {
            return Answer::Refused(12);
        }
        let plan = self.numbers.plan();
        if self.numbers.total() + plan.switch > plan.deadline {
            return Answer::Refused(13);
        }
        self.decide(self.numbers.release(), 0, false)
    }

    pub fn report(&mut self, number: u64, reading: u64) -> Answer {
        let Some(run) = &self.running else {
            return Answer::Refused(14);
        };
        let leaves = self.numbers.plan().leaves();
        let point = leaves
            .iter()
            .find(|(_, form)| form.point && form.leaf as u64 == number);
        let Some(&(_, form)) = point else {
            return Answer::Refused(15);
        };
        if reading < run.reading {
            return Answer::Refused(16);
        }
        let suspended = run.suspended;
        match self.numbers.report(&run.place, form.leaf) {
            None => Answer::Refused(17),
            Some(place) => self.decide(place, reading, suspended),
        }
    }

    pub fn end(&mut self, reading: u64) -> Answer {
        let Some(run) = &self.running else {
            return Answer::Refused(14);
        };
        if reading < run.reading {
            return Answer::Refused(16);
        }
        if !self.numbers.can_end(&run.place) {
            return Answer::Refused(17);
        }
        let word = if run.suspended {
            Word::Resume
        } else {
            Word::Ended
        };
        self.running = None;
        Answer::End {
            word,
            late: reading > self.numbers.plan().deadline,
        }
    }

    /// The decision at a place that a run has reached.
    fn decide(&mut self, place: N::Place, reading: u64, suspended: bool) -> Answer {
        let plan = self.numbers.plan();
        let remaining = self.numbers.remaining(&place);
        let margin = margin(plan.deadline, reading, self.weighed(&place, suspended));
        let word = Word::of(plan, suspended, margin);
        let late = reading > plan.deadline;
        self.running = Some(Running {
            place,
            reading,
            suspended: !word.others_run(),
        });
        Answer::Decision {
            word,
            remaining,
            margin,
            late,
        }
    }
}
