//! Lines of every form that a log has, and those that are off by a byte, a field or a
//! number.

use reference::damage;

/// Lines of every form that a log has, with numbers of one digit and of several.
pub const RIGHT: [&str; 4] = ["release\n", "point 1 9\n", "point 10 209\n", "end 40\n"];

/// A number of more digits than any below 2^64 has, so that a byte can be wrong behind
/// those that tell it.
const MANY_DIGITS: &str = "end 199999999999999999999\n";

/// Other lines, most of them near a right one. The line feeds inside some make
/// several lines of them.
pub const OTHERS: &[&str] = &[
    "",
    " ",
    "\r",
    "\t",
    "\0",
    "release\r",
    "release ",
    " release",
    "\trelease",
    "release\t",
    "release\0",
    "\0release",
    "release 0",
    "release release",
    "releas",
    "released",
    "elease",
    "Release",
    "RELEASE",
    "release)",
    "(release",
    "(release)",
    "\u{feff}release",
    "r\u{e9}lease",
    "release\n\nrelease",
    "release\n\rrelease",
    "release;end 40",
    "go 49 47 0",
    "refused 18",
    "report 1 9",
    "points 1 9",
    "poin 1 9",
    "Point 1 9",
    "POINT 1 9",
    "point",
    "point ",
    "point 1",
    "point 1 ",
    "point 1 9 ",
    "point 1 9\r",
    "point 1 9\0",
    "point 1 9 0",
    "point 1 9 9 9",
    "point  1 9",
    "point 1  9",
    "point\t1\t9",
    "point 1\t9",
    "point 1,9",
    "point 1\x009",
    "point\x001 9",
    " point 1 9",
    "point1 9",
    "point 19",
    "point p 9",
    "point 1 p",
    "point 1 9p",
    "point 1a 9",
    "point 01 9",
    "point 1 09",
    "point 00 9",
    "point 1 00",
    "point +1 9",
    "point 1 +9",
    "point -1 9",
    "point 1 -9",
    "point 1 -0",
    "point 1. 9",
    "point 1 9.0",
    "point 1 9e0",
    "point 0x1 9",
    "point 1 0x9",
    "point 1 9_0",
    "point 1 9,000",
    "point \u{ff11} 9",
    "point 1 \u{0669}",
    "point 9 1 end 40",
    "(point 1 9)",
    "end",
    "end ",
    "End 40",
    "END 40",
    "end 40 ",
    "end 40\r",
    "end 40\0",
    "end 40 0",
    "end 1 40",
    "end  40",
    "end\t40",
    "end\u{a0}40",
    "end40",
    "ends 40",
    "en 40",
    " end 40",
    "end +40",
    "end -40",
    "end 040",
    "end 4 0",
    "end 40.",
    "end 0x28",
    "end 28h",
    "end forty",
    "end :0",
    "end 4/",
    "(task 100 4",
    "(leaf p 5 9)",
    ")",
    "# release",
    "-- end 40",
];

/// Numbers around 2^64 and its multiples, and of 20 and 21 digits.
fn large_numbers() -> Vec<String> {
    let mut numbers = Vec::new();
    for many in [1, 2, 3, 10, 1 << 32, u128::from(u64::MAX)] {
        let near = many << 64;
        let offsets = (0..20).chain([40, 100]);
        numbers.extend(offsets.map(|offset| (near + offset).to_string()));
        numbers.extend((1..=6).map(|offset| (near - offset).to_string()));
    }
    for digit in 1..=9 {
        numbers.extend([19, 20, 64].map(|zeros| format!("{digit}{}", "0".repeat(zeros))));
        numbers.extend([20, 21, 47].map(|count| digit.to_string().repeat(count)));
    }
    numbers
}

/// Lines near those that a log has, in groups with a name.
pub fn near_right_ones() -> Vec<(String, Vec<Vec<u8>>)> {
    let mut groups = Vec::new();
    for line in RIGHT.into_iter().chain([MANY_DIGITS]) {
        let dropped = damage::every_byte_dropped_or_doubled(line.as_bytes());
        groups.push((format!("bytes of {line:?} dropped and doubled"), dropped));
        for at in 0..line.len() {
            let lines = damage::every_byte_at(line.as_bytes(), at);
            groups.push((format!("every byte at {at} of {line:?}"), lines));
        }
    }
    for line in RIGHT {
        let lines = damage::every_number_at_edges(line.as_bytes());
        groups.push((format!("numbers of {line:?} at edges"), lines));
    }
    for form in ["point 1 #\n", "point # 9\n", "point # #\n", "end #\n"] {
        let line = |number: &String| form.replace('#', number).into_bytes();
        let lines = large_numbers().iter().map(line).collect();
        groups.push((format!("large numbers in {form:?}"), lines));
    }
    groups
}
