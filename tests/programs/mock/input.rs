//! What a stand-in reads: its input, and the plan that it takes from it, with what is
//! planted in both.

use std::io::Read;

use reference::damage::silenced;
use reference::plan::{self, Plan, Refusal, MOST_BYTES, MOST_LEAVES};

use crate::planted::planted;

pub fn input() -> Vec<u8> {
    let mut text = Vec::new();
    if planted("first-piece-only") {
        text = vec![0; MOST_BYTES + 1];
        let length = std::io::stdin().read(&mut text).unwrap_or(0);
        text.truncate(length);
    } else {
        let most = (MOST_BYTES + 1) as u64;
        let whole = std::io::stdin().take(most).read_to_end(&mut text);
        whole.expect("the input is read");
    }
    if planted("cut-at-65536") {
        text.truncate(MOST_BYTES);
    }
    text
}

/// A plan as the reference reads it, with what is planted in the refusals; a point that
/// costs nothing may be silent.
pub fn read(text: &[u8]) -> Result<Plan, Refusal> {
    match plan::read(text, MOST_LEAVES) {
        _ if planted("oversize-from-65536") && text.len() == MOST_BYTES => Err((1, 0)),
        Err((1, _)) if planted("oversize-with-line") => Err((1, 1)),
        Err((19, line)) if planted("costless-listed") => {
            plan::read(&silenced(text, line), MOST_LEAVES)
        }
        answer => answer,
    }
}

/// The answer to a refused plan.
pub fn refused((number, line): Refusal) -> String {
    match planted("line-left-out") {
        true => format!("refused {number}\n"),
        false => format!("refused {number} {line}\n"),
    }
}
