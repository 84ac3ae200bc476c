//! Comparing one text or one call, and counting what was met.

use reference::calls::{Answer, LEAST_MARGIN};
use reference::composed::Composed;
use reference::count::Count;
use reference::edition::Edition;
use reference::gen::Random;
use reference::numbers::Numbers;
use reference::plan::{self, Refusal};
use reference::rulings::Rulings;
use reference::table::{self, Table};

use super::answers::Ruling;
use super::calls::{made, Call, Reply};
use super::law::{self, Outcome};
use super::memory::Memory;
use super::state::State;

/// What calls were to answer, and how often, so that nothing goes untried.
#[derive(Default)]
pub struct Met {
    pub calls: usize,
    /// By the number of the reply's word; the first is for refusals, and resume at a report
    /// stands last.
    words: [usize; 7],
    pub refusals: [usize; 18],
    pub late: usize,
    /// Margins that were held, and those of 0 and -1.
    pub held: usize,
    pub edges: [usize; 2],
}

impl Met {
    /// How often refusals and each word of this edition were.
    pub fn words(&self, edition: Edition) -> &[usize] {
        match edition {
            Edition::First => &self.words[..6],
            Edition::Second => &self.words,
        }
    }

    fn note(&mut self, answer: Answer) {
        self.calls += 1;
        let kind = match answer.is_return() {
            true => 6,
            false => Reply::of(answer).word as usize,
        };
        self.words[kind] += 1;
        match answer {
            Answer::Refused(number) => self.refusals[number as usize] += 1,
            Answer::End { late, .. } => self.late += usize::from(late),
            Answer::Decision { margin, late, .. } => {
                self.late += usize::from(late);
                self.held += usize::from(margin == LEAST_MARGIN);
                self.edges[0] += usize::from(margin == 0);
                self.edges[1] += usize::from(margin == -1);
            }
        }
    }
}

pub struct Tally {
    pub count: Count,
    pub met: Met,
    /// How often each ruling on a text was wanted.
    pub texts: Rulings,
    pub random: Random,
}

/// The first place where a call's reply or later state is not as wanted, in words.
fn difference(reply: Option<Reply>, state: &State, wanted: &Outcome) -> Option<String> {
    let Some(reply) = reply else {
        return Some("row, head or what is behind the state is changed".to_string());
    };
    let right = Reply::of(wanted.answer);
    if reply != right {
        return Some(format!("found {reply:?}, wanted {right:?}"));
    }
    let (found, wanted) = (&state.0, &wanted.state.0);
    let at = (0..wanted.len()).find(|&at| found[at] != wanted[at])?;
    let (name, found, wanted) = (State::name(at), found[at], wanted[at]);
    Some(format!("{name}: found {found}, wanted {wanted}"))
}

impl Tally {
    pub fn new(count: Count) -> Tally {
        Tally {
            count,
            met: Met::default(),
            texts: Rulings::default(),
            random: Random::new(81),
        }
    }

    /// Counts one comparison; a failure is shown, and what it was about kept.
    fn note(&mut self, failure: Option<String>, about: impl Fn() -> String) {
        self.count.note(failure, || about().into_bytes());
    }

    pub fn holds(&mut self, truth: bool, what: impl Fn() -> String) {
        let failure = (!truth).then(&what);
        self.note(failure, what);
    }

    /// Reads a text into memory full of random numbers, with a row of so many
    /// records. Refused, it must leave every number as it was; accepted, the plan's
    /// table must lie there and all behind it be as it was. What lies there
    /// afterwards comes back.
    fn read(
        &mut self,
        group: &str,
        text: &[u8],
        records: usize,
        wanted: &Result<Table, Refusal>,
    ) -> Table {
        let refusal = wanted.as_ref().err().copied();
        self.texts.note(refusal);
        let (number, line) = refusal.unwrap_or((0, 0));
        let mut found = Memory::new(&mut self.random, records);
        let mut after = found.clone();
        if let Ok(table) = wanted {
            after.write(table);
        }
        let ruling = found.read(text);
        let right = Ruling {
            number: number.into(),
            line: line as u64,
        };
        let different = match ruling == right {
            false => Some(format!("found {ruling:?}, wanted {right:?}")),
            true => found.difference(&after),
        };
        let failure = different.map(|what| format!("{group}, {records} records lent: {what}"));
        self.count.note(failure, || text.to_vec());
        found.table()
    }

    /// The same where a plan with these numbers is accepted, and then a release on
    /// what lies there.
    pub fn accepted<N: Numbers>(
        &mut self,
        group: &str,
        text: &[u8],
        records: usize,
        numbers: &N,
    ) -> Table {
        let table = self.read(group, text, records, &Ok(table::table(numbers)));
        let (state, call) = (State::fresh(), Call::Release);
        let wanted = law::outcome(numbers, None, &state, call);
        self.call(group, &table, &state, call, &wanted);
        table
    }

    /// The same for any text, by the compositional computation; the reference's
    /// refusal comes back too.
    pub fn text(&mut self, group: &str, text: &[u8], records: usize) -> (Table, Option<Refusal>) {
        match plan::read(text, records) {
            Ok(plan) => {
                let composed = Composed::new(&plan);
                (self.accepted(group, text, records, &composed), None)
            }
            Err(refusal) => {
                let table = self.read(group, text, records, &Err(refusal));
                (table, Some(refusal))
            }
        }
    }

    /// Makes a call and compares the reply and every number of the state.
    pub fn call(
        &mut self,
        group: &str,
        table: &Table,
        state: &State,
        call: Call,
        wanted: &Outcome,
    ) {
        self.met.note(wanted.answer);
        let mut after = state.clone();
        let reply = made(table, &mut after, call);
        let different = difference(reply, &after, wanted);
        let failure = different.map(|what| format!("{group}, {call:?}: {what}"));
        self.note(failure, || {
            format!("{group}\n{call:?}\n{table:?}\n{state:?}\nwanted {wanted:?}\n")
        });
    }
}
