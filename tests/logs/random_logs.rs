//! Random logs: runs of a plan with readings where decisions turn, and lines among
//! them that are refused.

use reference::composed::Composed;
use reference::damage;
use reference::gen::Random;
use reference::numbers::Numbers;
use reference::replay::Replay;

/// How the readings of a log are picked: mostly small steps, mostly where decisions
/// turn, or from everywhere.
#[derive(Clone, Copy)]
enum Habit {
    Steady,
    Turning,
    Wild,
}

struct Writer<'a> {
    composed: &'a Composed<'a>,
    /// The log as far as it is written, replayed.
    replay: Replay<'a, Composed<'a>>,
    habit: Habit,
    /// How often, in a hundred, a line is none of the run's.
    strays: u64,
}

impl<'a> Writer<'a> {
    fn new(random: &mut Random, composed: &'a Composed<'a>) -> Writer<'a> {
        Writer {
            composed,
            replay: Replay::new(composed),
            habit: random.pick(&[Habit::Steady, Habit::Turning, Habit::Turning, Habit::Wild]),
            strays: random.pick(&[0, 10, 40]),
        }
    }

    /// A reading that is not lower than the last one. `turning` is the last one with
    /// which the others go on.
    fn reading(&self, random: &mut Random, turning: i128) -> u64 {
        let last = self.replay.controller().last_reading();
        let deadline = self.composed.plan().deadline;
        let step = random.below(deadline / 16 + 2);
        let near = match (self.habit, random.below(10)) {
            (Habit::Steady, 2..) => return last.saturating_add(step),
            (Habit::Turning, 2..8) | (Habit::Wild, 2..4) => turning,
            (Habit::Turning, 8..) | (Habit::Wild, 4..6) => i128::from(deadline),
            (Habit::Wild, 6..) => 1 << random.pick(&[32, 62, 63, 64]),
            _ => return last,
        };
        let reading = near - 1 + i128::from(random.below(3));
        reading.clamp(last.into(), u64::MAX.into()) as u64
    }

    /// The next line of a run.
    fn next(&self, random: &mut Random) -> String {
        let controller = self.replay.controller();
        let Some(place) = controller.place() else {
            return "release\n".to_string();
        };
        let points: Vec<usize> = self.composed.next_points(place).into_iter().collect();
        let ends = self.composed.can_end(place) && random.chance(15);
        if ends || points.is_empty() {
            let deadline = self.composed.plan().deadline;
            return format!("end {}\n", self.reading(random, deadline.into()));
        }
        let point = random.pick(&points) as u64;
        let turning = controller.turning(point).unwrap_or(0);
        format!("point {point} {}\n", self.reading(random, turning))
    }

    /// A line that is mostly refused.
    fn stray(&self, random: &mut Random) -> Vec<u8> {
        let leaves = self.composed.plan().leaves().len() as u64;
        let near = random.below(leaves + 1);
        let number = random.pick(&[near, near, near, leaves, 512, u64::MAX]);
        let reading = self.reading(random, 0);
        let earlier = self.replay.controller().last_reading().saturating_sub(1);
        let line = match random.below(9) {
            0 => "release\n".to_string(),
            1 | 2 => format!("point {number} {reading}\n"),
            3 => format!("point {number} {earlier}\n"),
            4 => format!("end {earlier}\n"),
            5 => format!("end {reading}\n"),
            _ => {
                let line = self.next(random);
                return [damage::damaged(random, line.as_bytes()), b"\n".to_vec()].concat();
            }
        };
        line.into_bytes()
    }

    /// The next line or, by a damaged one, lines.
    fn lines(&mut self, random: &mut Random) -> Vec<u8> {
        let lines = match random.chance(self.strays) {
            true => self.stray(random),
            false => self.next(random).into_bytes(),
        };
        for line in lines.split_inclusive(|&byte| byte == b'\n') {
            self.replay.line(line);
        }
        lines
    }
}

/// A log of this length, or a few lines more.
pub fn random_log(random: &mut Random, composed: &Composed, length: usize) -> Vec<u8> {
    let mut writer = Writer::new(random, composed);
    let mut log = Vec::new();
    while log.len() < length {
        log.extend(writer.lines(random));
    }
    log
}
