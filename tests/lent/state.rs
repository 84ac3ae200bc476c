//! The state of a controller as the numbers that the caller lends, and the
//! states that accepted calls leave.

use reference::numbers::Times;
use reference::plan::MOST_LEVEL;

/// Levels 0 to 32.
pub const LEVELS: usize = MOST_LEVEL + 1;

/// Where the numbers stand: whether a release is open, whether the others are
/// suspended, the last accepted reading, the level of the last point; for each
/// level the leaf reported last there and its earlier visits there; and the
/// remaining time of each level.
pub const RUNNING: usize = 0;
pub const SUSPENDED: usize = 1;
pub const READING: usize = 2;
pub const LEVEL: usize = 3;
pub const LEAVES: usize = 4;
pub const EARLIER: usize = LEAVES + LEVELS;
pub const TIMES: usize = EARLIER + LEVELS;
pub const STATE: usize = TIMES + LEVELS;

pub type Numbers = [u64; STATE];

/// Of a level: the leaf reported last there, and its earlier visits there.
pub type Frame = (u64, u64);

#[derive(Clone, Debug, PartialEq, Eq)]
pub struct State(pub Numbers);

impl State {
    /// A fresh state is idle, every number in it 0.
    pub fn fresh() -> State {
        State([0; STATE])
    }

    pub fn is_running(&self) -> bool {
        self.0[RUNNING] != 0
    }

    pub fn is_suspended(&self) -> bool {
        self.0[SUSPENDED] != 0
    }

    pub fn reading(&self) -> u64 {
        self.0[READING]
    }

    pub fn times(&self) -> &[u64] {
        &self.0[TIMES..]
    }

    /// The frames of the levels from 1 up to that of the last point; None where
    /// that level is above 32.
    pub fn stack(&self) -> Option<Vec<Frame>> {
        let level = usize::try_from(self.0[LEVEL]).ok()?;
        let frame = |at: usize| (self.0[LEAVES + at], self.0[EARLIER + at]);
        (level < LEVELS).then(|| (1..=level).map(frame).collect())
    }

    /// A running state with this stack, all else 0.
    pub fn standing(stack: &[Frame], times: &Times) -> State {
        let mut state = State::fresh();
        state.0[RUNNING] = 1;
        state.0[LEVEL] = stack.len() as u64;
        for (at, &(leaf, earlier)) in stack.iter().enumerate() {
            state.0[LEAVES + 1 + at] = leaf;
            state.0[EARLIER + 1 + at] = earlier;
        }
        state.0[TIMES..].copy_from_slice(times);
        state
    }

    /// The state that an accepted release leaves.
    pub fn released(times: &Times, suspended: bool) -> State {
        let mut state = State::standing(&[], times);
        state.0[SUSPENDED] = u64::from(suspended);
        state
    }

    /// The state that an accepted report of this leaf at this level leaves. The
    /// frames below stay, those above are 0; the leaf that stood at the level
    /// already is visited once more.
    pub fn reported(&self, leaf: usize, level: usize, times: &Times) -> State {
        let leaf = leaf as u64;
        let again = level as u64 <= self.0[LEVEL] && self.0[LEAVES + level] == leaf;
        let earlier = match again {
            true => self.0[EARLIER + level] + 1,
            false => 0,
        };
        let mut state = self.clone();
        state.0[RUNNING] = 1;
        state.0[LEVEL] = level as u64;
        for (first, number) in [(LEAVES, leaf), (EARLIER, earlier)] {
            state.0[first + level] = number;
            state.0[first + level + 1..first + LEVELS].fill(0);
        }
        state.0[TIMES..].copy_from_slice(times);
        state
    }

    /// The same with this reading and the others suspended or not.
    pub fn decided(mut self, reading: u64, suspended: bool) -> State {
        self.0[READING] = reading;
        self.0[SUSPENDED] = u64::from(suspended);
        self
    }

    /// The name of a number, for messages.
    pub fn name(at: usize) -> String {
        match at {
            RUNNING => "running".to_string(),
            SUSPENDED => "suspended".to_string(),
            READING => "reading".to_string(),
            LEVEL => "level".to_string(),
            LEAVES..EARLIER => format!("leaves[{}]", at - LEAVES),
            EARLIER..TIMES => format!("earlier[{}]", at - EARLIER),
            _ => format!("times[{}]", at - TIMES),
        }
    }
}
