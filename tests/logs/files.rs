//! Words and files: wrong counts of words, files that are missing or directories,
//! odd names, and plans that are refused, for which no log is opened.

use std::ffi::{c_char, CString, OsStr, OsString};
use std::io;
use std::os::unix::ffi::{OsStrExt, OsStringExt};
use std::path::Path;

use reference::aimed;
use reference::numbers::printed as listing;
use reference::plan::{self, MOST_BYTES, MOST_LEAVES};
use reference::program::{run, run_on};
use reference::rulings::{Rulings, ALL_RULINGS};
use reference::worked::PLAN_A;

use super::tested::{Tested, Wanted};

extern "C" {
    fn mkfifo(path: *const c_char, mode: u32) -> i32;
}

const RUN: &str = "release\npoint 0 0\npoint 1 9\nend 40\n";
const REFUSED: &str = "(task 100 4\n(fun\n(leaf q 5 9)\n)\n)\n";
const REFUSAL: &str = "refused 2 3\n";

impl Tested {
    /// Runs the program with these words and nothing to read but files.
    fn words(&mut self, group: &str, words: [&OsStr; 2], wanted: Wanted) {
        let found = run(self.command(&words));
        self.note(group, found, wanted, &words.map(OsStr::as_bytes));
    }

    /// The same within this folder.
    fn words_in(&mut self, folder: &Path, words: [&OsStr; 2], output: &str) {
        let mut command = self.command(&words);
        command.current_dir(folder);
        let group = format!("{words:?} within their folder");
        self.note(&group, run(command), Wanted::quiet(output), &[]);
    }
}

/// Other than two words: no file is opened and no input is read.
fn word_counts(tested: &mut Tested) {
    let (plan, log) = (tested.plan.clone(), tested.log.clone());
    let (plan, log) = (plan.as_os_str(), log.as_os_str());
    let (empty, missing) = (OsStr::new(""), OsStr::new("missing"));
    tested.write_log(RUN.as_bytes());
    for (words, input) in [
        (&[][..], PLAN_A),
        (&[plan], RUN),
        (&[missing], ""),
        (&[empty], ""),
        (&[plan, log, log], ""),
        (&[plan, log, empty], ""),
        (&[missing, log, log], ""),
        (&[plan, log, plan, log], ""),
    ] {
        for text in [PLAN_A, REFUSED] {
            tested.write_plan(text.as_bytes());
            let found = run_on(tested.command(words), input.as_bytes());
            let group = format!("{} words", words.len());
            tested.note(&group, found, Wanted::complaint(b""), &[text.as_bytes()]);
        }
    }
}

/// Names of files that cannot be opened or read.
fn unreadable(tested: &Tested) -> Vec<OsString> {
    let folder = tested.count.folder();
    let mut names = vec![
        folder.join("missing").into_os_string(),
        folder.join("missing file").into_os_string(),
        folder.join("missing").join("log").into_os_string(),
        // A file is no folder.
        tested.plan.join("log").into_os_string(),
        folder.as_os_str().to_os_string(),
        OsString::from("/"),
        OsString::from("."),
        OsString::from_vec(b"missing \xff".to_vec()),
        OsString::new(),
    ];
    names.extend([200, 300, 3_000].map(|length| OsString::from("m".repeat(length))));
    names
}

fn unreadable_files(tested: &mut Tested) {
    tested.write_plan(PLAN_A.as_bytes());
    tested.write_log(RUN.as_bytes());
    let (plan, log) = (tested.plan.clone(), tested.log.clone());
    let elsewhere = tested.count.folder().join("elsewhere");
    for name in unreadable(tested) {
        let wanted = Wanted::complaint(name.as_bytes());
        let shown: String = name.to_string_lossy().chars().take(60).collect();
        let group = format!("plan {shown:?}");
        tested.words(&group, [&name, log.as_os_str()], wanted);
        // The plan is read first, so it is the one that is named.
        tested.words(&group, [&name, elsewhere.as_os_str()], wanted);
        let group = format!("log {shown:?}");
        tested.words(&group, [plan.as_os_str(), &name], wanted);
    }
    // Of a name that no file can have, its beginning.
    let long = OsString::from("m".repeat(5_000));
    let wanted = Wanted::complaint(b"mmm");
    tested.words("a plan's long name", [&long, log.as_os_str()], wanted);
    tested.words("a log's long name", [plan.as_os_str(), &long], wanted);
}

/// Names that are read as any others.
fn odd_names(tested: &mut Tested) {
    let answers = (tested.printed)(PLAN_A.as_bytes(), RUN.as_bytes());
    let folder = tested.count.folder().join("names");
    std::fs::create_dir_all(&folder).expect("a folder for odd names");
    let write = |name: &OsStr, text: &str| {
        std::fs::write(folder.join(name), text).expect("the file is written");
    };
    let (plan, log) = (OsStr::new("plan"), OsStr::new("log"));
    write(plan, PLAN_A);
    write(log, RUN);
    for name in ["-", "--", "-h", "--help", "a log", "%s\\n", "*", "\u{e9}"] {
        let name = OsStr::new(name);
        write(name, PLAN_A);
        tested.words_in(&folder, [name, log], &answers);
        write(name, REFUSED);
        tested.words_in(&folder, [name, log], REFUSAL);
        write(name, RUN);
        tested.words_in(&folder, [plan, name], &answers);
    }
    std::fs::remove_dir_all(&folder).expect("the folder is removed");
}

/// A pipe with a name that nobody writes to: whoever opens it waits.
fn pipe_at(path: &Path) -> io::Result<()> {
    if path.exists() {
        std::fs::remove_file(path)?;
    }
    let name = CString::new(path.as_os_str().as_bytes())?;
    // SAFETY: the name ends in a 0.
    match unsafe { mkfifo(name.as_ptr(), 0o600) } {
        0 => Ok(()),
        _ => Err(io::Error::last_os_error()),
    }
}

/// The log of a refused plan is not opened, whatever it is.
fn refused_plans(tested: &mut Tested) {
    let folder = tested.count.folder().to_path_buf();
    let pipe = folder.join("pipe");
    let made = pipe_at(&pipe);
    let what = format!("a pipe with a name: {made:?}");
    tested.count.holds(made.is_ok(), &what);
    let plan = tested.plan.clone();
    let oversize = "x".repeat(MOST_BYTES + 1);
    for text in [REFUSED, "", "release\n", &oversize] {
        tested.write_plan(text.as_bytes());
        let refusal = listing(text.as_bytes());
        for log in [&folder.join("missing"), &folder, &pipe, Path::new("")] {
            let words = [plan.as_os_str(), log.as_os_str()];
            let group = format!("a refused plan with the log {log:?}");
            tested.words(&group, words, Wanted::quiet(&refusal));
        }
    }
    let removed = std::fs::remove_file(&pipe);
    tested.count.holds(removed.is_ok(), "the pipe is removed");
}

/// Plans at every rule's edge, refused and accepted.
fn aimed_plans(tested: &mut Tested) {
    let mut rulings = Rulings::default();
    for case in aimed::cases() {
        if case.row == MOST_LEAVES {
            rulings.note(plan::read(&case.text, MOST_LEAVES).err());
            tested.log(&case.name, &case.text, b"release\npoint 0 0\n");
        }
    }
    let met = rulings.met(&ALL_RULINGS, 1);
    tested
        .count
        .holds(met, "plans are accepted, and refused by each rule");
}

/// Plans of 65,536 bytes and around.
fn plan_lengths(tested: &mut Tested) {
    for length in [
        MOST_BYTES - 1,
        MOST_BYTES,
        MOST_BYTES + 1,
        2 * MOST_BYTES,
        1 << 20,
    ] {
        for fill in [b'\n', b' ', b')', 0] {
            let mut text = PLAN_A.as_bytes().to_vec();
            text.resize(length, fill);
            let group = format!("a plan of {length} bytes");
            tested.log(&group, &text, RUN.as_bytes());
        }
    }
}

/// One file as both, and the empty device.
fn same_and_none(tested: &mut Tested) {
    tested.write_plan(PLAN_A.as_bytes());
    tested.write_log(RUN.as_bytes());
    let (plan, log) = (tested.plan.clone(), tested.log.clone());
    let (plan, log, none) = (plan.as_os_str(), log.as_os_str(), OsStr::new("/dev/null"));
    let refused = (tested.printed)(PLAN_A.as_bytes(), PLAN_A.as_bytes());
    tested.words("the plan as its log", [plan, plan], Wanted::quiet(&refused));
    let refusal = Wanted::quiet("refused 2 1\n");
    tested.words("the log as its plan", [log, log], refusal);
    tested.words("no plan", [none, log], refusal);
    tested.words("no log", [plan, none], Wanted::quiet(""));
}

pub fn compare_all(tested: &mut Tested) {
    word_counts(tested);
    unreadable_files(tested);
    odd_names(tested);
    refused_plans(tested);
    aimed_plans(tested);
    plan_lengths(tested);
    same_and_none(tested);
}
