//! Counting comparisons, showing those that fail and keeping what they were
//! about.

use std::path::{Path, PathBuf};

/// Failures past this many are counted but neither shown nor kept.
const SHOWN: usize = 20;

pub struct Count {
    passed: usize,
    failed: usize,
    /// Where what failed is kept.
    folder: PathBuf,
    /// Whether the first failure ends the test.
    hasty: bool,
    /// The one part of the test that is run; None where all are.
    only: Option<String>,
}

impl Count {
    /// From a program's words: the folder, then perhaps `hasty`, then perhaps the
    /// name of the one part that is run.
    pub fn new(words: impl Iterator<Item = String>) -> Count {
        let words: Vec<String> = words.collect();
        let folder = words.first().map_or(".", |word| word.as_str());
        Count {
            passed: 0,
            failed: 0,
            folder: PathBuf::from(folder),
            hasty: words.get(1).is_some_and(|word| word == "hasty"),
            only: words.get(2).cloned(),
        }
    }

    pub fn folder(&self) -> &Path {
        &self.folder
    }

    /// Counts one comparison, with what is wrong if something is.
    pub fn note(&mut self, failure: Option<String>, about: impl FnOnce() -> Vec<u8>) {
        let Some(failure) = failure else {
            self.passed += 1;
            return;
        };
        self.failed += 1;
        if self.failed <= SHOWN {
            let file = self.folder.join(format!("failed-{}.txt", self.failed));
            println!("failed: {failure}");
            match std::fs::write(&file, about()) {
                Ok(()) => println!("  kept in {}", file.display()),
                Err(error) => println!("  not kept: {error}"),
            }
        }
        if self.hasty {
            self.finish();
        }
    }

    pub fn holds(&mut self, truth: bool, what: &str) {
        let failure = (!truth).then(|| what.to_string());
        self.note(failure, || what.as_bytes().to_vec());
    }

    /// How many comparisons were made.
    fn compared(&self) -> usize {
        self.passed + self.failed
    }

    fn wants(&self, part: &str) -> bool {
        self.only.as_ref().is_none_or(|only| only == part)
    }

    /// Prints the counts and ends the test.
    pub fn finish(&self) -> ! {
        println!("{} passed, {} failed", self.passed, self.failed);
        std::process::exit(i32::from(self.failed > 0));
    }
}

/// A part of a test and its name.
pub type Part<T> = (&'static str, fn(&mut T));

/// Runs the parts of a test that are wanted, and ends it. `count` says where it
/// counts its comparisons.
pub fn run<T>(mut test: T, parts: &[Part<T>], count: fn(&T) -> &Count) -> ! {
    for &(name, compare_all) in parts {
        if count(&test).wants(name) {
            let before = count(&test).compared();
            compare_all(&mut test);
            println!("{name}: {} checks", count(&test).compared() - before);
        }
    }
    count(&test).finish()
}
