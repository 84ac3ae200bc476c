//! The built program that explains a log's last report against the reference: for every
//! plan and every log it writes what the reference does, byte for byte, and nothing else;
//! and where words or files are wrong, one line on standard error.

mod lines;
mod random;
mod worked;

use logs::tested::{self, Part};
use logs::{broken_reads, files, lengths, megabytes, pieces};
use reference::cause::printed;

const PARTS: &[Part] = &[
    ("worked", worked::compare_all),
    ("lines", lines::compare_all),
    ("lengths", lengths::compare_all),
    ("pieces", pieces::compare_all),
    ("random", random::compare_all),
    ("megabytes", megabytes::compare_all),
    ("files", files::compare_all),
    ("broken-reads", broken_reads::compare_all),
];

/// A later report may come, so nothing is printed before the log's end.
fn nothing(_text: &[u8], _read: &[u8]) -> String {
    String::new()
}

fn main() {
    tested::test(PARTS, printed, nothing)
}
