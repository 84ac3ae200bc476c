//! Standard input that cannot be read, and standard output that takes nothing.

use std::process::Command;

use reference::many_runs;
use reference::program::{run_on, Ended};
use reference::worked::PLAN_A;

use super::comparison::{closed_fault, whole_fault, Comparison};

/// Runs the program on a text with this redirection of the shell, and counts it.
fn redirected(
    comparison: &mut Comparison,
    redirection: &str,
    text: &str,
    wrong: impl FnOnce(Ended) -> Option<String>,
) {
    let mut shell = Command::new("sh");
    shell.args(["-c", &format!("exec \"$0\" {redirection}")]);
    shell.arg(&comparison.program);
    let found = run_on(shell, text.as_bytes());
    comparison.note(redirection, text.as_bytes(), found, wrong);
}

/// An input that is closed or a directory is an empty one.
fn unread(comparison: &mut Comparison) {
    for redirection in ["<&-", "< /"] {
        redirected(comparison, redirection, "", |found| {
            whole_fault(found, "refused 2 1\n")
        });
    }
}

/// A refusal, a few lines and a great many fail alike where nothing can be written.
fn full(comparison: &mut Comparison) {
    let many = many_runs::plans().swap_remove(0).plan;
    for text in ["", PLAN_A, &many] {
        redirected(comparison, "> /dev/full", text, |found| {
            closed_fault(&found, "")
        });
    }
}

pub fn compare_all(comparison: &mut Comparison) {
    unread(comparison);
    full(comparison);
}
