//! The replay of a log in plain safe Rust, by the calls of the reference: what the proved program is measured against. `replay PLAN LOG` prints the same
//! bytes and reads the log as that one does, in pieces of at most 4,096 bytes, each answered by one write. The table is checked at every call; with a third
//! argument, `once`, a single time for each piece, as the proved program does it.
#![forbid(unsafe_code)]

mod entry;
#[path = "../memory.rs"]
mod memory;
mod print;
#[path = "../reference/mod.rs"]
mod reference;

use std::fs::File;
use std::hint::black_box;
use std::io::{self, Read, Write};
use std::process::ExitCode;

use entry::Entry;
use memory::{Head, Leaf, Reply, State, LEAVES, TEXT};
use reference::calls::{end_on, release_on, report_on, REFUSED};
use reference::check::table;

/// How many bytes of the log are read at a time.
const PIECE: usize = 4_096;

/// How many bytes of a line are held from one piece to the next: more than a line of the grammar has.
const HELD: usize = 64;

/// When the table is checked.
#[derive(Clone, Copy, PartialEq, Eq)]
enum Checks {
    EveryCall,
    OncePerPiece,
}

/// The ticks of a release.
#[derive(Default)]
struct Ticks {
    shared: u64,
    suspended: u64,
}

struct Replay<'a> {
    row: &'a [Leaf],
    head: &'a Head,
    checks: Checks,
    state: State,
    ticks: Ticks,
    /// The line that the last piece began.
    held: [u8; HELD],
    count: usize,
    /// The answers to the lines of a piece.
    out: Vec<u8>,
}

impl Replay<'_> {
    /// Makes a call. `checked` is the table as this piece's check found it, unless every call checks for itself.
    fn call(&mut self, checked: Option<&[Leaf]>, entry: &Entry) -> Reply {
        let (head, state) = (self.head, &mut self.state);
        if self.checks == Checks::OncePerPiece {
            return match *entry {
                Entry::Release => release_on(checked, head, state),
                Entry::Report(point, reading) => report_on(checked, head, state, point, reading),
                Entry::End(reading) => end_on(checked, head, state, reading),
            };
        }
        let row = black_box(self.row);
        match *entry {
            Entry::Release => reference::release(row, head, state),
            Entry::Report(point, reading) => reference::report(row, head, state, point, reading),
            Entry::End(reading) => reference::end(row, head, state, reading),
        }
    }

    /// Answers a line, given with its line feed.
    fn line(&mut self, checked: Option<&[Leaf]>, line: &[u8]) {
        let Some(entry) = entry::entry(line) else {
            return print::refused_line(&mut self.out);
        };
        let (last, stopped) = (self.state.reading, self.state.suspended != 0);
        let reply = self.call(checked, &entry);
        print::answer(&mut self.out, &entry, &reply);
        if reply.word == REFUSED {
            return;
        }
        match entry {
            Entry::Release => self.ticks = Ticks::default(),
            Entry::Report(_, reading) | Entry::End(reading) if stopped => {
                self.ticks.suspended += reading - last
            }
            Entry::Report(_, reading) | Entry::End(reading) => self.ticks.shared += reading - last,
        }
        if let Entry::End(_) = entry {
            print::ticks(&mut self.out, self.ticks.shared, self.ticks.suspended);
        }
    }

    /// Holds what a piece has of a line, as far as there is room.
    fn hold(&mut self, part: &[u8]) {
        let part = &part[..part.len().min(HELD - self.count)];
        self.held[self.count..][..part.len()].copy_from_slice(part);
        self.count += part.len();
    }

    fn piece(&mut self, piece: &[u8]) {
        let checked = match self.checks {
            Checks::EveryCall => None,
            Checks::OncePerPiece => table(black_box(self.row), self.head),
        };
        for part in piece.split_inclusive(|&byte| byte == b'\n') {
            if self.count == 0 && part.ends_with(b"\n") {
                self.line(checked, part);
                continue;
            }
            self.hold(part);
            if part.ends_with(b"\n") {
                let held = self.held;
                self.line(checked, &held[..self.count]);
                self.count = 0;
            }
        }
    }

    /// Prints the answers and forgets them.
    fn show(&mut self) -> io::Result<()> {
        io::stdout().write_all(&self.out)?;
        self.out.clear();
        Ok(())
    }

    fn log(&mut self, mut log: File) -> io::Result<()> {
        let mut piece = [0; PIECE];
        loop {
            let size = log.read(&mut piece)?;
            if size == 0 {
                break;
            }
            self.piece(&piece[..size]);
            self.show()?;
        }
        if self.count > 0 {
            print::refused_line(&mut self.out);
        }
        self.show()
    }
}

fn replay(plan: &str, log: &str, checks: Checks) -> io::Result<()> {
    let mut text = Vec::new();
    File::open(plan)?
        .take(TEXT as u64 + 1)
        .read_to_end(&mut text)?;
    let (mut row, mut head) = ([Leaf::default(); LEAVES], Head::default());
    let ruling = reference::read(&text, &mut row, &mut head);
    let mut replay = Replay {
        row: &row,
        head: &head,
        checks,
        state: State::FRESH,
        ticks: Ticks::default(),
        held: [0; HELD],
        count: 0,
        out: Vec::new(),
    };
    if ruling.number > 0 {
        print::refused_plan(&mut replay.out, ruling.number, ruling.line);
        return replay.show();
    }
    replay.log(File::open(log)?)
}

fn main() -> ExitCode {
    let arguments: Vec<String> = std::env::args().skip(1).collect();
    let arguments: Vec<&str> = arguments.iter().map(String::as_str).collect();
    let done = match arguments[..] {
        [plan, log] => replay(plan, log, Checks::EveryCall),
        [plan, log, "once"] => replay(plan, log, Checks::OncePerPiece),
        _ => Err(io::Error::other("replay PLAN LOG [once]")),
    };
    if let Err(error) = done {
        eprintln!("{error}");
        return ExitCode::FAILURE;
    }
    ExitCode::SUCCESS
}
