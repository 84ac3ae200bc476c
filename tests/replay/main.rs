//! The built replay program against the reference: for every plan and every log it
//! writes what the reference does, byte for byte, and nothing else; and where words
//! or files are wrong, one line on standard error.

mod lines;
mod open_log;
mod random;
mod worked;

use logs::tested::{self, Part};
use logs::{broken_reads, files, lengths, megabytes, pieces};
use reference::replay::printed;

const PARTS: &[Part] = &[
    ("worked", worked::compare_all),
    ("lines", lines::compare_all),
    ("lengths", lengths::compare_all),
    ("pieces", pieces::compare_all),
    ("open-log", open_log::compare_all),
    ("random", random::compare_all),
    ("megabytes", megabytes::compare_all),
    ("files", files::compare_all),
    ("broken-reads", broken_reads::compare_all),
];

/// The answers to the lines that were read whole.
fn printed_before_failure(text: &[u8], read: &[u8]) -> String {
    let last = read.iter().rposition(|&byte| byte == b'\n');
    printed(text, &read[..last.map_or(0, |at| at + 1)])
}

fn main() {
    tested::test(PARTS, printed, printed_before_failure)
}
