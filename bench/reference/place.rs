//! Where a run stands: its place as the state has it, the next point, and the end. The table was found good before.

use crate::memory::{Head, Leaf, State, CALL, IF, LEVELS, LOOP};

/// What silence leads to among forms.
#[derive(Clone, Copy, PartialEq, Eq, PartialOrd, Ord)]
enum Sight {
    /// Another point, first.
    Stop,
    /// Past them all.
    Pass,
    /// The point that is looked for.
    Meet,
}

/// What silence leads to from a place on, over all ways.
#[derive(Clone, Copy)]
pub struct Ahead {
    /// The largest cost under load up to a point that is met. Where none is, no more than past all forms.
    up_to_point: u64,
    /// The same past all forms; None where every way meets a point.
    past: Option<u64>,
    /// Whether no way meets a point.
    silent: bool,
}

impl Ahead {
    const POINT: Ahead = Ahead {
        up_to_point: 0,
        past: None,
        silent: false,
    };

    fn silent(cost: u64) -> Ahead {
        Ahead {
            up_to_point: 0,
            past: Some(cost),
            silent: true,
        }
    }

    /// One after the other.
    fn then(self, next: Ahead) -> Ahead {
        let Some(cost) = self.past else {
            return self;
        };
        Ahead {
            up_to_point: self.up_to_point.max(cost + next.up_to_point),
            past: next.past.map(|more| cost + more),
            silent: self.silent && next.silent,
        }
    }

    /// One or the other.
    fn or(self, other: Ahead) -> Ahead {
        Ahead {
            up_to_point: self.up_to_point.max(other.up_to_point),
            past: self.past.max(other.past),
            silent: self.silent && other.silent,
        }
    }

    /// The largest cost under load up to the next point or the end.
    pub fn stretch(self) -> u64 {
        self.up_to_point.max(self.past.unwrap_or(0))
    }

    /// Whether no run meets a further point.
    pub fn is_final(self) -> bool {
        self.silent
    }

    pub fn can_end(self) -> bool {
        self.past.is_some()
    }
}

/// A point that can come next: its level and its earlier visits there.
pub struct Next {
    pub level: usize,
    pub earlier: u64,
}

/// The records that run at one level.
#[derive(Clone, Copy)]
struct Span {
    from: usize,
    to: usize,
    /// Their level in their own function.
    level: u64,
}

pub struct Place<'a> {
    pub row: &'a [Leaf],
    pub head: &'a Head,
    pub state: &'a State,
}

impl Place<'_> {
    fn leaf(&self, level: usize) -> usize {
        self.state.leaves[level] as usize
    }

    fn function(&self, number: usize) -> Span {
        Span {
            from: self.head.bounds[number] as usize,
            to: self.head.bounds[number + 1] as usize,
            level: 1,
        }
    }

    /// The records inside a loop or call.
    fn inside(&self, leaf: usize) -> Span {
        let record = &self.row[leaf];
        if record.kind == CALL {
            return self.function(record.detail as usize);
        }
        Span {
            from: leaf + 1,
            to: record.after as usize,
            level: record.level + 1,
        }
    }

    fn span(&self, level: usize) -> Span {
        match level {
            1 => self.function(self.head.functions - 1),
            _ => self.inside(self.leaf(level - 1)),
        }
    }

    /// Rule 11 for a running state: some run stands here, and these are its remaining times.
    pub fn holds(&self) -> bool {
        let state = self.state;
        if state.level > LEVELS as u64 {
            return false;
        }
        let level = state.level as usize;
        state.times[0] == self.head.total
            && state.times[level + 1..].iter().all(|&time| time == 0)
            && (1..=level).all(|l| {
                self.stands(l) && state.times[l] == self.time(l, self.leaf(l), state.earlier[l])
            })
    }

    /// Whether the leaf of a level is a point there with a fitting count, and what is below it is open.
    fn stands(&self, level: usize) -> bool {
        if level > 1 {
            let outer = &self.row[self.leaf(level - 1)];
            let open = match outer.kind {
                CALL => true,
                LOOP => self.state.earlier[level - 1] < outer.detail,
                _ => false,
            };
            if !open {
                return false;
            }
        }
        let (span, leaf, earlier) = (
            self.span(level),
            self.leaf(level),
            self.state.earlier[level],
        );
        if leaf < span.from || span.to <= leaf {
            return false;
        }
        let record = &self.row[leaf];
        let most = match record.kind {
            LOOP => record.detail,
            _ => 0,
        };
        record.level == span.level && record.point == 1 && earlier <= most
    }

    /// What remains at a leaf of this level after so many earlier visits.
    pub fn time(&self, level: usize, leaf: usize, earlier: u64) -> u64 {
        let record = &self.row[leaf];
        let mut first = record.tail;
        if level > 1 {
            let outer = &self.row[self.leaf(level - 1)];
            let end = match outer.kind {
                LOOP => outer.tail,
                _ => outer.isolated + self.head.totals[outer.detail as usize],
            };
            first = self.state.times[level - 1] - (end - record.tail);
        }
        first - earlier * record.turn
    }

    fn scan(&self, from: usize, to: usize, point: usize) -> Sight {
        let mut at = from;
        while at < to {
            if self.row[at].point == 1 {
                return if at == point {
                    Sight::Meet
                } else {
                    Sight::Stop
                };
            }
            let sight = self.scan_parts(at, point);
            if sight != Sight::Pass {
                return sight;
            }
            at = self.row[at].after as usize;
        }
        Sight::Pass
    }

    fn scan_parts(&self, at: usize, point: usize) -> Sight {
        let record = &self.row[at];
        if record.kind != IF {
            return Sight::Pass;
        }
        let (other, after) = (record.other as usize, record.after as usize);
        let first = self.scan(at + 1, other, point);
        first.max(self.scan(other, after, point))
    }

    /// What silence leads to behind a leaf that stands among these forms or in the parts of their ifs.
    fn behind(&self, from: usize, to: usize, leaf: usize, point: usize) -> Sight {
        let mut at = from;
        while self.row[at].after as usize <= leaf {
            at = self.row[at].after as usize;
        }
        let record = &self.row[at];
        let (other, after) = (record.other as usize, record.after as usize);
        let sight = if at == leaf {
            self.scan_parts(at, point)
        } else if leaf < other {
            self.behind(at + 1, other, leaf, point)
        } else {
            self.behind(other, after, leaf, point)
        };
        match sight {
            Sight::Pass => self.scan(after, to, point),
            _ => sight,
        }
    }

    /// The level at which the point comes once the run has left the form of the leaf reported last.
    fn fall(&self, point: usize) -> Option<usize> {
        for level in (1..=self.state.level as usize).rev() {
            let span = self.span(level);
            match self.behind(span.from, span.to, self.leaf(level), point) {
                Sight::Meet => return Some(level),
                Sight::Stop => return None,
                Sight::Pass => {}
            }
            if self.in_loop(level) {
                return (self.leaf(level - 1) == point).then_some(level - 1);
            }
        }
        None
    }

    /// Whether what is around a level is a loop.
    fn in_loop(&self, level: usize) -> bool {
        level > 1 && self.row[self.leaf(level - 1)].kind == LOOP
    }

    fn scan_span(&self, span: Span, point: usize) -> Sight {
        self.scan(span.from, span.to, point)
    }

    /// The point as the next one; None where no run has it next.
    pub fn next(&self, point: usize) -> Option<Next> {
        let level = self.state.level as usize;
        if level == 0 {
            let sight = self.scan_span(self.span(1), point);
            return (sight == Sight::Meet).then_some(Next {
                level: 1,
                earlier: 0,
            });
        }
        let here = self.leaf(level);
        let record = &self.row[here];
        if record.kind == LOOP && (here..record.after as usize).contains(&point) {
            return self.round(level, point);
        }
        if record.kind == CALL {
            match self.scan_span(self.inside(here), point) {
                Sight::Meet => {
                    return Some(Next {
                        level: level + 1,
                        earlier: 0,
                    })
                }
                Sight::Stop => return None,
                Sight::Pass => {}
            }
        }
        let level = self.fall(point)?;
        let again = self.leaf(level) == point;
        let earlier = if again {
            self.state.earlier[level] + 1
        } else {
            0
        };
        Some(Next { level, earlier })
    }

    /// The point in another round of the loop at this level, or the loop itself behind it.
    fn round(&self, level: usize, point: usize) -> Option<Next> {
        let here = self.leaf(level);
        let earlier = self.state.earlier[level];
        if earlier == self.row[here].detail {
            return None;
        }
        match self.scan_span(self.inside(here), point) {
            Sight::Meet => Some(Next {
                level: level + 1,
                earlier: 0,
            }),
            Sight::Pass if here == point => Some(Next {
                level,
                earlier: earlier + 1,
            }),
            _ => None,
        }
    }

    /// The silent ways through forms, up to the first that is a point.
    fn silence(&self, from: usize, to: usize) -> Ahead {
        let mut ahead = Ahead::silent(0);
        let mut at = from;
        while at < to && ahead.past.is_some() {
            ahead = ahead.then(self.silence_of_form(at));
            at = self.row[at].after as usize;
        }
        ahead
    }

    /// A silent loop or call has no point inside, so its sums tell.
    fn silence_of_form(&self, at: usize) -> Ahead {
        let record = &self.row[at];
        if record.point == 1 {
            return Ahead::POINT;
        }
        let own = record.max_load;
        match record.kind {
            CALL => Ahead::silent(own + self.head.max_load_totals[record.detail as usize]),
            LOOP => Ahead::silent(own + record.detail * record.max_load_turn),
            IF => Ahead::silent(own).then(self.silence_of_parts(at)),
            _ => Ahead::silent(own),
        }
    }

    fn silence_of_parts(&self, at: usize) -> Ahead {
        let (other, after) = (self.row[at].other as usize, self.row[at].after as usize);
        self.silence(at + 1, other).or(self.silence(other, after))
    }

    fn silence_of_span(&self, span: Span) -> Ahead {
        self.silence(span.from, span.to)
    }

    /// The silent ways within the form of a leaf behind this visit of it.
    fn silence_within(&self, leaf: usize, earlier: u64) -> Ahead {
        match self.row[leaf].kind {
            CALL => self.silence_of_span(self.inside(leaf)),
            // It is left, or turns again and comes back to its condition.
            LOOP if earlier < self.row[leaf].detail => {
                let turned = self.silence_of_span(self.inside(leaf)).then(Ahead::POINT);
                turned.or(Ahead::silent(0))
            }
            IF => self.silence_of_parts(leaf),
            _ => Ahead::silent(0),
        }
    }

    /// Those behind that form, which stands among these or in the parts of their ifs.
    fn silence_behind(&self, from: usize, to: usize, leaf: usize) -> Ahead {
        let mut at = from;
        while self.row[at].after as usize <= leaf {
            at = self.row[at].after as usize;
        }
        let (other, after) = (self.row[at].other as usize, self.row[at].after as usize);
        let ahead = if at == leaf {
            Ahead::silent(0)
        } else if leaf < other {
            self.silence_behind(at + 1, other, leaf)
        } else {
            self.silence_behind(other, after, leaf)
        };
        match ahead.past {
            Some(_) => ahead.then(self.silence(after, to)),
            None => ahead,
        }
    }

    /// From the start of a run.
    pub fn from_start(&self) -> Ahead {
        self.silence_of_span(self.span(1))
    }

    /// From a visit of this leaf on, which the state reaches next or has reached: level by level up to the first point, which a loop around is too.
    pub fn from_visit(&self, leaf: usize, visit: &Next) -> Ahead {
        let own = Ahead::silent(self.row[leaf].max_load);
        let mut ahead = own.then(self.silence_within(leaf, visit.earlier));
        let mut left = leaf;
        for level in (1..=visit.level).rev() {
            if ahead.past.is_none() {
                break;
            }
            let span = self.span(level);
            ahead = ahead.then(self.silence_behind(span.from, span.to, left));
            if self.in_loop(level) {
                return ahead.then(Ahead::POINT);
            }
            left = self.leaf(level - 1);
        }
        ahead
    }

    /// From where the state stands.
    pub fn ahead(&self) -> Ahead {
        match self.state.level as usize {
            0 => self.from_start(),
            level => {
                let earlier = self.state.earlier[level];
                self.from_visit(self.leaf(level), &Next { level, earlier })
            }
        }
    }
}
