//! Differences in refusal 19 of a text's lines: on which of them it is looked for, and
//! when.

use std::sync::OnceLock;

use reference::damage::silenced;
use reference::lines::{shape, Line};
use reference::plan::{self, Plan, Refusal};

use super::planted::planted;

/// What reading the lines of a text answers.
type Answer = Result<Plan, Refusal>;

/// A text, the records lent for it, and what reading its lines is to answer.
struct Read<'a> {
    text: &'a [u8],
    row: usize,
    answer: Answer,
}

/// The line with this number, by its own shape.
fn line_of(text: &[u8], number: usize) -> Option<Line> {
    let line = text.split(|&byte| byte == b'\n').nth(number - 1)?;
    shape(line)
}

fn is_costless(line: &Line) -> bool {
    matches!(line.leaf(), Some((true, 0, _)))
}

/// The number of the first line that is a silent leaf of cost 0.
fn first_silent(text: &[u8]) -> Option<usize> {
    let leaf = |line| shape(line)?.leaf();
    let mut lines = text.split(|&byte| byte == b'\n');
    let at = lines.position(|line| matches!(leaf(line), Some((false, 0, _))));
    Some(at? + 1)
}

impl Read<'_> {
    /// The answer where 19 is not looked for on such lines: each is silent instead.
    fn without(&self, left_out: impl Fn(&Line) -> bool) -> Answer {
        let mut text = self.text.to_vec();
        loop {
            match plan::read_lines(&text, self.row) {
                Err((19, line)) if line_of(&text, line).is_some_and(|line| left_out(&line)) => {
                    text = silenced(&text, line);
                }
                answer => return answer,
            }
        }
    }

    /// 19 where this rule is to be named on the same line.
    fn before(self, rule: u32) -> Answer {
        match self.answer {
            Err((number, line)) if number == rule => {
                let costless = line_of(self.text, line).is_some_and(|line| is_costless(&line));
                Err((if costless { 19 } else { rule }, line))
            }
            answer => answer,
        }
    }

    /// This rule where 19 is to be named on the same line.
    fn after(self, rule: u32) -> Answer {
        match self.answer {
            Err((19, line)) => match plan::read_lines(&silenced(self.text, line), self.row) {
                Err(other) if other == (rule, line) => Err(other),
                _ => Err((19, line)),
            },
            answer => answer,
        }
    }

    /// 19 once no line is refused by another rule.
    fn after_all_lines(self) -> Answer {
        match self.answer {
            Err((19, line)) => self.without(|_| true).and(Err((19, line))),
            answer => answer,
        }
    }

    /// 19 for silent leaves too.
    fn of_silent(self) -> Answer {
        match (first_silent(self.text), &self.answer) {
            (_, Err((1, _))) | (None, _) => self.answer,
            (Some(silent), Err((_, line))) if *line <= silent => self.answer,
            (Some(silent), _) => Err((19, silent)),
        }
    }

    /// Another line for 19 than the one that is refused.
    fn at_line(self, moved: impl Fn(usize) -> usize) -> Answer {
        match self.answer {
            Err((19, line)) => Err((19, moved(line))),
            answer => answer,
        }
    }
}

/// A name, and the answer with the difference of that name.
type Difference = (&'static str, fn(Read) -> Answer);

const ALL: &[Difference] = &[
    ("costless-accepted", |read| read.without(|_| true)),
    ("costless-leaves-accepted", |read| {
        read.without(|line| matches!(line, Line::Leaf(..)))
    }),
    ("costless-calls-accepted", |read| {
        read.without(|line| matches!(line, Line::Call(..)))
    }),
    ("costless-loops-accepted", |read| {
        read.without(|line| matches!(line, Line::Loop(..)))
    }),
    ("costless-ifs-accepted", |read| {
        read.without(|line| matches!(line, Line::If(..)))
    }),
    ("costless-by-max-load", |read| {
        read.without(|line| matches!(line.leaf(), Some((_, _, 1..))))
    }),
    ("costless-before-form", |read| read.before(2)),
    ("costless-before-range", |read| read.before(3)),
    ("costless-before-count", |read| read.before(4)),
    ("costless-after-target", |read| read.after(6)),
    ("costless-after-depth", |read| read.after(7)),
    ("costless-after-all-lines", |read| read.after_all_lines()),
    ("costless-silent-refused", |read| read.of_silent()),
    ("costless-without-line", |read| read.at_line(|_| 0)),
    ("costless-a-line-early", |read| {
        read.at_line(|line| line - 1)
    }),
    ("costless-a-line-late", |read| read.at_line(|line| line + 1)),
];

/// What is planted in the answers; the right ones where it is elsewhere.
fn difference() -> fn(Read) -> Answer {
    static FOUND: OnceLock<fn(Read) -> Answer> = OnceLock::new();
    *FOUND.get_or_init(|| {
        let mut named = ALL.iter().filter(|(name, _)| planted(name));
        let found = named.next().map(|(_, answer)| *answer);
        found.unwrap_or(|read| read.answer)
    })
}

/// The answer to the lines of a text, and what is planted there.
pub fn answer(text: &[u8], row: usize, right: Answer) -> Answer {
    difference()(Read {
        text,
        row,
        answer: right,
    })
}
