//! The memory that callers lend and the answers of calls, as in `include/rolsipay.h`.

#[path = "../tests/lent/answers.rs"]
mod answers;

pub use answers::{Reply, Ruling};

/// The most leaves, functions, levels and bytes.
pub const LEAVES: usize = 512;
pub const FUNCTIONS: usize = 16;
pub const LEVELS: usize = 32;
pub const TEXT: usize = 65_536;

/// The kinds of a leaf.
pub const LEAF: u64 = 0;
pub const CALL: u64 = 1;
pub const LOOP: u64 = 2;
pub const IF: u64 = 3;

#[repr(C)]
#[derive(Clone, Copy, Debug, Default, PartialEq, Eq)]
pub struct Leaf {
    pub kind: u64,
    pub point: u64,
    pub isolated: u64,
    pub max_load: u64,
    pub detail: u64,
    pub other: u64,
    pub after: u64,
    pub level: u64,
    pub turn: u64,
    pub tail: u64,
    pub max_load_turn: u64,
}

#[repr(C)]
#[derive(Clone, Copy, Debug, Default, PartialEq, Eq)]
pub struct Head {
    pub deadline: u64,
    pub switching: u64,
    pub edition: u64,
    pub resuming: u64,
    pub total: u64,
    pub max_load_total: u64,
    pub leaves: usize,
    pub functions: usize,
    pub bounds: [u64; FUNCTIONS + 1],
    pub totals: [u64; FUNCTIONS],
    pub max_load_totals: [u64; FUNCTIONS],
}

#[repr(C)]
#[derive(Clone, Copy, Debug, PartialEq, Eq)]
pub struct State {
    pub running: u64,
    pub suspended: u64,
    pub reading: u64,
    pub level: u64,
    pub leaves: [u64; LEVELS + 1],
    pub earlier: [u64; LEVELS + 1],
    pub times: [u64; LEVELS + 1],
}

impl State {
    pub const FRESH: State = State {
        running: 0,
        suspended: 0,
        reading: 0,
        level: 0,
        leaves: [0; LEVELS + 1],
        earlier: [0; LEVELS + 1],
        times: [0; LEVELS + 1],
    };
}
