//! Ticks shared and suspended, gap by gap as the log is read.

use reference::calls::Word;

use super::planted::planted;

#[derive(Default)]
pub struct Sums {
    shared: u64,
    suspended: u64,
    /// The last accepted reading and its decision.
    reading: u64,
    word: Option<Word>,
}

impl Sums {
    fn is_shared(&self) -> bool {
        match self.word {
            Some(Word::Suspend) => planted("gap-after-suspend-shared"),
            Some(Word::Stay) => planted("gap-after-stay-shared"),
            Some(Word::Resume) => !planted("gap-after-return-suspended"),
            _ => true,
        }
    }

    /// Ends the gap since the last reading.
    pub fn gap(&mut self, reading: u64) {
        let gap = reading.saturating_sub(self.reading);
        match self.is_shared() {
            true => self.shared = self.shared.wrapping_add(gap),
            false => self.suspended = self.suspended.wrapping_add(gap),
        }
        self.reading = reading;
    }

    pub fn clear(&mut self) {
        self.shared = 0;
        self.suspended = 0;
    }

    pub fn released(&mut self, word: Word) {
        if !planted("sums-kept-at-release") {
            self.clear();
        }
        self.reading = 0;
        if !planted("decision-kept-at-release") || self.word.is_none() {
            self.word = Some(word);
        }
    }

    pub fn reported(&mut self, reading: u64, word: Word, first: bool) {
        if planted("gap-by-decision-behind") {
            self.word = Some(word);
        }
        if planted("first-gap-left-out") && first {
            self.reading = reading;
        }
        self.gap(reading);
        self.word = Some(word);
    }

    /// The line of an end with this reading.
    pub fn line(&mut self, reading: u64) -> String {
        if planted("last-gap-left-out") {
            self.reading = reading;
        }
        self.gap(reading);
        let (mut shared, mut suspended) = (self.shared, self.suspended);
        if planted("sums-in-32-bits") {
            (shared, suspended) = (shared & 0xffff_ffff, suspended & 0xffff_ffff);
        }
        if planted("sums-turned") {
            (shared, suspended) = (suspended, shared);
        }
        let sum = match planted("sum-of-shared-alone") {
            true => shared,
            false => shared.wrapping_add(suspended),
        };
        match planted("sum-left-out") {
            true => format!("{shared} {suspended}\n"),
            false => format!("{shared} {suspended} {sum}\n"),
        }
    }
}
