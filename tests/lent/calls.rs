//! Calls on lent memory, and answers as the numbers of a reply.

pub use reference::calls::Call;
use reference::calls::{Answer, Word};
use reference::table::Table;

pub use super::answers::Reply;
use super::delivered::{rolsipay_end, rolsipay_release, rolsipay_report};
use super::state::{Numbers, State, STATE};

/// The words of replies, in the order of their numbers; 0 is a refusal's.
const WORDS: [Word; 5] = [
    Word::Go,
    Word::Suspend,
    Word::Stay,
    Word::Resume,
    Word::Ended,
];

impl Reply {
    /// The reply that says this; numbers that the answer does not have are 0.
    pub fn of(answer: Answer) -> Reply {
        let number_of = |word: Word| {
            let at = WORDS.iter().position(|&known| known == word);
            at.map_or(0, |at| at as u64 + 1)
        };
        let (word, number, remaining, margin, late) = match answer {
            Answer::Refused(number) => (0, number, 0, 0, false),
            Answer::End { word, late } => (number_of(word), 0, 0, 0, late),
            Answer::Decision {
                word,
                remaining,
                margin,
                late,
            } => (number_of(word), 0, remaining, margin, late),
        };
        Reply {
            word,
            number: number.into(),
            remaining,
            margin,
            late: late.into(),
        }
    }

    /// What the reply to this call says; None where it says nothing that such a call
    /// answers.
    pub fn answer(&self, call: Call) -> Option<Answer> {
        let late = self.late == 1;
        let at = (self.word as usize).checked_sub(1);
        let answer = match (at, call) {
            (None, _) => Answer::Refused(u32::try_from(self.number).ok()?),
            (Some(at @ 3..=4), Call::End(_)) => Answer::End {
                word: WORDS[at],
                late,
            },
            (Some(at @ 0..=1), Call::Release) | (Some(at @ 0..=3), Call::Report(..)) => {
                Answer::Decision {
                    word: WORDS[at],
                    remaining: self.remaining,
                    margin: self.margin,
                    late,
                }
            }
            _ => return None,
        };
        (Reply::of(answer) == *self).then_some(answer)
    }
}

/// What lies behind a lent state.
const BEHIND: Numbers = [0x5a5a_5a5a_5a5a_5a5a; STATE];

/// Makes a call on a table, which moves the state on; None where the call changes
/// row, head or what is behind the state.
pub fn made(table: &Table, state: &mut State, call: Call) -> Option<Reply> {
    let (mut row, mut head) = (table.row.clone(), table.head);
    let mut lent = [state.0, BEHIND];
    // By pointers that may be written through, so that a change is seen.
    let (first, records) = (row.as_mut_ptr().cast_const(), row.len());
    let beside = (&raw mut head).cast_const();
    let numbers = lent.as_mut_ptr();
    // SAFETY: row, head and state are live and do not overlap.
    let reply = unsafe {
        match call {
            Call::Release => rolsipay_release(first, records, beside, numbers),
            Call::Report(point, reading) => {
                rolsipay_report(first, records, beside, numbers, point, reading)
            }
            Call::End(reading) => rolsipay_end(first, records, beside, numbers, reading),
        }
    };
    state.0 = lent[0];
    let kept = row == table.row && head == table.head && lent[1] == BEHIND;
    kept.then_some(reply)
}
