//! Random plan texts, most of them accepted, and spoiled ones. The random numbers are those of tests/reference.

pub use trials::gen::Random;

/// Changes, drops, doubles or adds a byte, or drops or doubles a line.
pub fn spoil(random: &mut Random, text: &mut Vec<u8>) {
    if text.is_empty() {
        return;
    }
    let at = random.index(text.len());
    let byte = random.pick(b"0123456789()psleaf \ncaiother");
    let from = text[..at]
        .iter()
        .rposition(|&b| b == b'\n')
        .map_or(0, |k| k + 1);
    let to = text[at..]
        .iter()
        .position(|&b| b == b'\n')
        .map_or(text.len(), |k| at + k + 1);
    match random.below(6) {
        0 => text[at] = byte,
        1 => drop(text.remove(at)),
        2 => text.insert(at, text[at]),
        3 => text.insert(at, byte),
        4 => drop(text.drain(from..to)),
        _ => {
            let line = text[from..to].to_vec();
            text.splice(from..from, line);
        }
    }
}

/// How often, in a hundred, points of a text may cost nothing.
const COSTLESS: u64 = 10;

struct Writer<'a> {
    random: &'a mut Random,
    lines: Vec<String>,
    functions: u64,
    leaves: usize,
    /// Percentages of points and of calls.
    points: u64,
    calls: u64,
    cost: u64,
    /// Whether points may cost nothing, and the text is refused for them.
    costless: bool,
}

impl Writer<'_> {
    fn forms(&mut self, depth: usize, silent: bool) {
        let count = self.random.index(5);
        for _ in 0..count {
            if self.leaves > 0 {
                self.leaves -= 1;
                self.form(depth, silent);
            }
        }
    }

    fn form(&mut self, depth: usize, silent: bool) {
        let point = !silent && self.random.chance(self.points);
        let mark = if point { 'p' } else { 's' };
        let least = u64::from(point && !self.costless);
        let max_load = self.random.below(self.cost + 1).max(least);
        let isolated = self.random.below(max_load + 1).max(least);
        let inner = depth > 0 && self.random.chance(50);
        if inner && self.random.chance(50) {
            let bound = 1 + self.random.below(3);
            self.lines
                .push(format!("(loop {mark} {bound} {isolated} {max_load}"));
            self.forms(depth - 1, silent || !point);
        } else if inner {
            self.lines
                .push(format!("(if {mark} {isolated} {max_load}\n(then"));
            self.forms(depth - 1, silent);
            self.lines.push(")\n(else".to_string());
            self.forms(depth - 1, silent);
            self.lines.push(")".to_string());
        } else if self.functions > 0 && self.random.chance(self.calls) {
            let target = self.random.below(self.functions);
            self.lines
                .push(format!("(call {mark} {target} {isolated} {max_load})"));
            return;
        } else {
            self.lines
                .push(format!("(leaf {mark} {isolated} {max_load})"));
            return;
        }
        self.lines.push(")".to_string());
    }

    fn function(&mut self, depth: usize) {
        self.lines.push("(fun".to_string());
        self.forms(depth, false);
        // Without this most functions would be called by none.
        if self.functions > 0 && self.random.chance(90) {
            let target = self.functions - 1;
            self.lines.push(format!("(call p {target} 1 2)"));
        }
        self.forms(depth, false);
        self.lines.push(")".to_string());
        self.functions += 1;
    }
}

pub fn random_text(random: &mut Random) -> Vec<u8> {
    let bits = random.pick(&[5, 8, 12, 20, 30]);
    let deadline = 1 + random.below(1 << bits);
    let functions = 1 + random.below(4);
    let depth = 1 + random.index(5);
    let (points, calls) = (random.pick(&[30, 60, 90]), random.pick(&[5, 30]));
    let cost = random.pick(&[1, 10, 1 << 20]);
    let costless = random.chance(COSTLESS);
    // Every second plan is of edition 2, with little to pay for coming back, or much.
    let resume = random.pick(&["", "", "", "", " 0", " 1", " 3", " 1048576"]);
    let mut writer = Writer {
        leaves: 4 + random.index(40),
        random,
        lines: vec![format!("(task {deadline} 3{resume}")],
        functions: 0,
        points,
        calls,
        cost,
        costless,
    };
    for _ in 0..functions {
        writer.function(depth);
    }
    writer.lines.push(")\n".to_string());
    writer.lines.join("\n").into_bytes()
}
