//! What the tests of the programs that take a plan and a log share: running one of them,
//! random logs, logs of a megabyte, in pieces and with lines of every length, lines of
//! another form, files that cannot be had and reads that fail.

pub mod broken_reads;
pub mod files;
pub mod forms;
pub mod lengths;
pub mod megabytes;
pub mod pieces;
pub mod random_logs;
pub mod tested;
