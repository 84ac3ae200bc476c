//! The plan tree, its reader (refusals 1 to 10 and 19) and its printer.

use super::lines::{shape, Line};
use super::rules;

pub const MOST_BYTES: usize = 65_536;
pub const MOST_LEAVES: usize = 512;
pub const MOST_FUNCTIONS: usize = 16;
pub const MOST_BRACKETS: usize = 64;
pub const MOST_LEVEL: usize = 32;
pub const MOST_DEADLINE: u64 = 1 << 40;
pub const MOST_COST: u64 = 1 << 20;
pub const MOST_BOUND: u64 = 65_535;
pub const MOST_TARGET: u64 = 15;

/// A refusal: its number and the line it is on (0 where none is named).
pub type Refusal = (u32, usize);

/// The rules that one line can break, in the order in which they are named there.
pub const LINE_RULES: [u32; 7] = [2, 3, 4, 5, 19, 6, 7];

#[derive(Clone, Debug, PartialEq, Eq)]
pub enum Kind {
    Leaf,
    Call(usize),
    Loop(u64, Vec<Form>),
    If(Vec<Form>, Vec<Form>),
}

/// One leaf line with what belongs to it. `leaf` is its number in text order.
#[derive(Clone, Debug, PartialEq, Eq)]
pub struct Form {
    pub leaf: usize,
    pub point: bool,
    pub isolated: u64,
    pub loaded: u64,
    pub kind: Kind,
}

#[derive(Clone, Debug, PartialEq, Eq)]
pub struct Plan {
    pub deadline: u64,
    pub switch: u64,
    /// The cost of resuming, U, of an edition 2 plan (02, L7); None in edition 1.
    pub resume: Option<u64>,
    pub functions: Vec<Vec<Form>>,
}

impl Plan {
    pub fn main(&self) -> usize {
        self.functions.len() - 1
    }

    /// What coming back takes off a margin: U where the others are suspended in an
    /// edition 2 plan, and nothing elsewhere.
    pub fn cost_of_return(&self, suspended: bool) -> u64 {
        self.resume.filter(|_| suspended).unwrap_or(0)
    }

    /// Every form of the plan in leaf order, with the number of its function.
    pub fn leaves(&self) -> Vec<(usize, &Form)> {
        fn gather<'a>(function: usize, forms: &'a [Form], into: &mut Vec<(usize, &'a Form)>) {
            for form in forms {
                into.push((function, form));
                match &form.kind {
                    Kind::Loop(_, body) => gather(function, body, into),
                    Kind::If(then_part, else_part) => {
                        gather(function, then_part, into);
                        gather(function, else_part, into);
                    }
                    Kind::Leaf | Kind::Call(_) => {}
                }
            }
        }
        let mut all = Vec::new();
        for (function, forms) in self.functions.iter().enumerate() {
            gather(function, forms, &mut all);
        }
        all
    }

    /// Changes every form in leaf order, each before what is inside it.
    pub fn change_all(&mut self, mut by: impl FnMut(&mut Form)) {
        fn change(forms: &mut [Form], by: &mut dyn FnMut(&mut Form)) {
            for form in forms {
                by(form);
                match &mut form.kind {
                    Kind::Loop(_, body) => change(body, by),
                    Kind::If(then_part, else_part) => {
                        change(then_part, by);
                        change(else_part, by);
                    }
                    Kind::Leaf | Kind::Call(_) => {}
                }
            }
        }
        for forms in &mut self.functions {
            change(forms, &mut by);
        }
    }

    /// Changes the leaf with this number.
    pub fn change(&mut self, leaf: usize, by: impl Fn(&mut Form)) {
        self.change_all(|form| {
            if form.leaf == leaf {
                by(form);
            }
        });
    }

    /// Numbers the leaves anew in text order, for plans built or changed in memory.
    pub fn renumber(&mut self) {
        let mut next = 0;
        self.change_all(|form| {
            form.leaf = next;
            next += 1;
        });
    }
}

/// An open bracket; those that hold forms hold the ones read so far.
enum Open {
    Task,
    Fun(Vec<Form>),
    Loop(Form, Vec<Form>),
    If(Form, Vec<Vec<Form>>),
    Then(Vec<Form>),
    Else(Vec<Form>),
}

/// Refusal 3: whether every number of the line is within its range.
fn in_range(line: &Line) -> bool {
    let costs = |c: u64, m: u64| c <= MOST_COST && m <= MOST_COST;
    match *line {
        Line::Task(d, t, u) => {
            (1..=MOST_DEADLINE).contains(&d) && t.max(u.unwrap_or(0)) <= MOST_COST
        }
        Line::Leaf(_, c, m) | Line::If(_, c, m) => costs(c, m),
        Line::Call(_, f, c, m) => f <= MOST_TARGET && costs(c, m),
        Line::Loop(_, b, c, m) => (1..=MOST_BOUND).contains(&b) && costs(c, m),
        Line::Fun | Line::Then | Line::Else | Line::Close => true,
    }
}

struct Reader {
    room: usize,
    plan: Plan,
    heights: Vec<usize>,
    height: usize,
    leaves: usize,
    open: Vec<Open>,
    begun: bool,
}

impl Reader {
    fn closed(&self) -> bool {
        self.begun && self.open.is_empty()
    }

    /// Refusal 2 by nesting: whether a line of this shape may stand here.
    fn fits(&self, line: &Line) -> bool {
        let Some(innermost) = self.open.last() else {
            return !self.begun && matches!(line, Line::Task(..));
        };
        match line {
            Line::Task(..) => false,
            Line::Fun => matches!(innermost, Open::Task),
            Line::Then => matches!(innermost, Open::If(_, parts) if parts.is_empty()),
            Line::Else => matches!(innermost, Open::If(_, parts) if parts.len() == 1),
            Line::Close => match innermost {
                Open::Task => !self.plan.functions.is_empty(),
                Open::If(_, parts) => parts.len() == 2,
                _ => true,
            },
            Line::Leaf(..) | Line::Call(..) | Line::Loop(..) | Line::If(..) => {
                !matches!(innermost, Open::Task | Open::If(..))
            }
        }
    }

    /// Refusals 3, 4, 5, 19, 6 and 7 on a line that fits, in this order.
    fn judge(&self, line: &Line) -> Result<(), u32> {
        if !in_range(line) {
            return Err(3);
        }
        let own = self.plan.functions.len();
        let leaf = line.leaf();
        if leaf.is_some() && self.leaves == self.room {
            return Err(4);
        }
        if matches!(line, Line::Fun) && own == MOST_FUNCTIONS {
            return Err(4);
        }
        if leaf.is_some_and(|(_, c, m)| m < c) {
            return Err(5);
        }
        if leaf.is_some_and(|(point, c, _)| point && c == 0) {
            return Err(19);
        }
        if matches!(*line, Line::Call(_, f, _, _) if f >= own as u64) {
            return Err(6);
        }
        let opens = !matches!(line, Line::Leaf(..) | Line::Call(..) | Line::Close);
        if opens && self.open.len() == MOST_BRACKETS {
            return Err(7);
        }
        if leaf.is_some() && self.reach(line) > MOST_LEVEL {
            return Err(7);
        }
        Ok(())
    }

    /// The level of a form on the next line: 1 and one more for each open loop.
    fn level(&self) -> usize {
        1 + self
            .open
            .iter()
            .filter(|open| matches!(open, Open::Loop(..)))
            .count()
    }

    /// The greatest level that a leaf line brings, called forms included.
    fn reach(&self, line: &Line) -> usize {
        match *line {
            Line::Call(_, f, _, _) => self.level() + self.heights[f as usize],
            _ => self.level(),
        }
    }

    fn place(&mut self, form: Form) {
        match self.open.last_mut() {
            Some(Open::Fun(forms) | Open::Loop(_, forms)) => forms.push(form),
            Some(Open::Then(forms) | Open::Else(forms)) => forms.push(form),
            _ => unreachable!("a form stands only where forms are held"),
        }
    }

    /// Counts a line that is a leaf, and how high it reaches; gives the number of
    /// leaves before.
    fn count(&mut self, line: &Line) -> usize {
        let before = self.leaves;
        if line.leaf().is_some() {
            self.height = self.height.max(self.reach(line));
            self.leaves += 1;
        }
        before
    }

    /// Takes a line over that broke no rule.
    fn take(&mut self, line: Line) {
        let leaf = self.count(&line);
        let form = |point, isolated, loaded, kind| Form {
            leaf,
            point,
            isolated,
            loaded,
            kind,
        };
        match line {
            Line::Task(d, t, u) => {
                self.begun = true;
                self.plan.deadline = d;
                self.plan.switch = t;
                self.plan.resume = u;
                self.open.push(Open::Task);
            }
            Line::Fun => {
                self.height = 0;
                self.open.push(Open::Fun(Vec::new()));
            }
            Line::Leaf(k, c, m) => self.place(form(k, c, m, Kind::Leaf)),
            Line::Call(k, f, c, m) => self.place(form(k, c, m, Kind::Call(f as usize))),
            Line::Loop(k, b, c, m) => {
                let head = form(k, c, m, Kind::Loop(b, Vec::new()));
                self.open.push(Open::Loop(head, Vec::new()));
            }
            Line::If(k, c, m) => {
                let head = form(k, c, m, Kind::If(Vec::new(), Vec::new()));
                self.open.push(Open::If(head, Vec::new()));
            }
            Line::Then => self.open.push(Open::Then(Vec::new())),
            Line::Else => self.open.push(Open::Else(Vec::new())),
            Line::Close => self.close(),
        }
    }

    fn close(&mut self) {
        match self.open.pop() {
            None => unreachable!("a closing bracket fits only where one is open"),
            Some(Open::Task) => {}
            Some(Open::Fun(forms)) => {
                self.plan.functions.push(forms);
                self.heights.push(self.height);
            }
            Some(Open::Loop(mut head, forms)) => {
                if let Kind::Loop(_, body) = &mut head.kind {
                    *body = forms;
                }
                self.place(head);
            }
            Some(Open::Then(forms) | Open::Else(forms)) => {
                if let Some(Open::If(_, parts)) = self.open.last_mut() {
                    parts.push(forms);
                }
            }
            Some(Open::If(mut head, parts)) => {
                let mut parts = parts.into_iter();
                if let (Some(then_part), Some(else_part)) = (parts.next(), parts.next()) {
                    head.kind = Kind::If(then_part, else_part);
                }
                self.place(head);
            }
        }
    }
}

/// Refusals 1 to 7 and 19. `row` is the number of records lent.
pub fn read_lines(text: &[u8], row: usize) -> Result<Plan, Refusal> {
    if text.len() > MOST_BYTES {
        return Err((1, 0));
    }
    let mut reader = Reader {
        room: row.min(MOST_LEAVES),
        plan: Plan {
            deadline: 0,
            switch: 0,
            resume: None,
            functions: Vec::new(),
        },
        heights: Vec::new(),
        height: 0,
        leaves: 0,
        open: Vec::new(),
        begun: false,
    };
    let mut count = 0;
    for line in text.split_inclusive(|&byte| byte == b'\n') {
        count += 1;
        let line = line.strip_suffix(b"\n").ok_or((2, count))?;
        let line = shape(line).ok_or((2, count))?;
        if !reader.fits(&line) {
            return Err((2, count));
        }
        reader.judge(&line).map_err(|number| (number, count))?;
        reader.take(line);
    }
    if !reader.closed() {
        return Err((2, count + 1));
    }
    Ok(reader.plan)
}

/// Refusals 1 to 10 and 19.
pub fn read(text: &[u8], row: usize) -> Result<Plan, Refusal> {
    let plan = read_lines(text, row)?;
    rules::judge(&plan).map_err(|number| (number, 0))?;
    Ok(plan)
}

/// The one text that is read as this plan.
pub fn text(plan: &Plan) -> Vec<u8> {
    fn forms_text(forms: &[Form], into: &mut String) {
        for form in forms {
            let k = if form.point { 'p' } else { 's' };
            let (c, m) = (form.isolated, form.loaded);
            match &form.kind {
                Kind::Leaf => into.push_str(&format!("(leaf {k} {c} {m})\n")),
                Kind::Call(f) => into.push_str(&format!("(call {k} {f} {c} {m})\n")),
                Kind::Loop(b, body) => {
                    into.push_str(&format!("(loop {k} {b} {c} {m}\n"));
                    forms_text(body, into);
                    into.push_str(")\n");
                }
                Kind::If(then_part, else_part) => {
                    into.push_str(&format!("(if {k} {c} {m}\n(then\n"));
                    forms_text(then_part, into);
                    into.push_str(")\n(else\n");
                    forms_text(else_part, into);
                    into.push_str(")\n)\n");
                }
            }
        }
    }
    let resume = plan.resume.map_or(String::new(), |cost| format!(" {cost}"));
    let mut all = format!("(task {} {}{resume}\n", plan.deadline, plan.switch);
    for forms in &plan.functions {
        all.push_str("(fun\n");
        forms_text(forms, &mut all);
        all.push_str(")\n");
    }
    all.push_str(")\n");
    all.into_bytes()
}
