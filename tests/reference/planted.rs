//! What is planted in a stand-in, by the environment of its test.

use std::collections::HashSet;
use std::sync::OnceLock;

/// The name of what is planted; empty where nothing is.
fn name() -> &'static str {
    static NAME: OnceLock<String> = OnceLock::new();
    NAME.get_or_init(|| std::env::var("PLANTED").unwrap_or_default())
}

/// Whether some test is to find the difference of this name: it is the last part of an
/// entry.
fn is_known(entries: &'static [&'static str], name: &str) -> bool {
    static NAMES: OnceLock<HashSet<&str>> = OnceLock::new();
    let names = || entries.iter().filter_map(|entry| entry.rsplit('/').next());
    NAMES.get_or_init(|| names().collect()).contains(name)
}

/// Whether the difference of this name is planted. The entries are those of the stand-in;
/// where nothing is planted, every name that is asked for must be one that some test is to
/// find.
pub fn planted(entries: &'static [&'static str], name: &str) -> bool {
    if self::name().is_empty() {
        assert!(is_known(entries, name), "no test is to find {name}");
    }
    self::name() == name
}
