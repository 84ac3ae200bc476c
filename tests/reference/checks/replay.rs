//! The replay of logs: the worked ones, and which lines have which form.

use reference::calls::Call;
use reference::composed::Composed;
use reference::plan;
use reference::replay::{answers, call_of, printed};
use reference::worked_logs::{Case, CASES};

use super::tally::Tally;

const LARGEST: u64 = u64::MAX;

/// Each worked log as a whole; on an accepted plan also by composed numbers, since
/// the runs of such small plans are listed.
pub fn worked(
    tally: &mut Tally,
    cases: &[&[Case]],
    printed: fn(&[u8], &[u8]) -> String,
    composed: fn(&Composed, &[u8]) -> String,
) {
    for case in cases.iter().copied().flatten() {
        let (text, log) = (case.plan.as_bytes(), case.log.as_bytes());
        let found = printed(text, log);
        tally.equal(found.as_str(), case.printed, || case.name.to_string());
        if let Ok(plan) = plan::read(text, 512) {
            let found = composed(&Composed::new(&plan), log);
            tally.equal(found.as_str(), case.printed, || {
                format!("{}, composed", case.name)
            });
        }
    }
}

fn forms(tally: &mut Tally) {
    for (line, wanted) in [
        ("release\n", Call::Release),
        ("point 0 0\n", Call::Report(0, 0)),
        ("point 10 200\n", Call::Report(10, 200)),
        (
            "point 18446744073709551615 18446744073709551615\n",
            Call::Report(LARGEST, LARGEST),
        ),
        ("end 0\n", Call::End(0)),
        ("end 18446744073709551609\n", Call::End(LARGEST - 6)),
    ] {
        tally.equal(call_of(line.as_bytes()), Some(wanted), || line.to_string());
    }
}

/// Lines of another form, each near one that is right.
const OTHERS: [&str; 38] = [
    "",
    "\n",
    "release",
    "release\r\n",
    "release \n",
    " release\n",
    "release 0\n",
    "releas\n",
    "released\n",
    "Release\n",
    "RELEASE\n",
    "release\0\n",
    "end\n",
    "end \n",
    "end 1",
    "end 1 \n",
    "end  1\n",
    "end\t1\n",
    "end 1 2\n",
    "end +1\n",
    "end -1\n",
    "end 01\n",
    "end 00\n",
    "end 1a\n",
    "end 1_0\n",
    "end \u{0661}\n",
    "end 18446744073709551616\n",
    "end 184467440737095516150\n",
    "end 99999999999999999999999999999999999999999\n",
    "point\n",
    "point 1\n",
    "point 1 \n",
    "point 1  2\n",
    "point 1 2 3\n",
    "point 1 02\n",
    "point 01 2\n",
    "point 18446744073709551616 2\n",
    "point,1,2\n",
];

fn other_forms(tally: &mut Tally) {
    for line in OTHERS {
        tally.equal(call_of(line.as_bytes()), None, || format!("{line:?}"));
    }
}

pub fn check(tally: &mut Tally) {
    worked(tally, CASES, printed, |composed, log| {
        answers(composed, log)
    });
    forms(tally);
    other_forms(tally);
}
