//! Texts with something wrong in them, or changed and perhaps still right.

use super::gen::Random;
use super::lines::shape;

/// Numbers at and around every range edge, and forms that are no numbers.
const EDGES: [&str; 45] = [
    "0",
    "1",
    "2",
    "14",
    "15",
    "16",
    "17",
    "31",
    "32",
    "33",
    "63",
    "64",
    "65",
    "255",
    "256",
    "511",
    "512",
    "513",
    "65534",
    "65535",
    "65536",
    "65537",
    "1048575",
    "1048576",
    "1048577",
    "1099511627775",
    "1099511627776",
    "1099511627777",
    "4294967295",
    "4294967296",
    "4294967297",
    "18446744073709551615",
    "18446744073709551616",
    "18446744073709551617",
    "340282366920938463463374607431768211456",
    "00",
    "01",
    "007",
    "00000000000000000001",
    "-1",
    "+1",
    "1.0",
    "0x1",
    "1e3",
    "",
];

/// The edges, and numbers of many digits.
pub fn edge_numbers() -> Vec<Vec<u8>> {
    let mut all: Vec<Vec<u8>> = EDGES
        .iter()
        .map(|number| number.as_bytes().to_vec())
        .collect();
    for digits in [100, 1_000] {
        all.push(vec![b'9'; digits]);
        all.push([&b"1"[..], &vec![b'0'; digits]].concat());
        all.push(vec![b'0'; digits]);
    }
    all
}

fn lines(text: &[u8]) -> Vec<Vec<u8>> {
    text.split_inclusive(|&byte| byte == b'\n')
        .map(<[u8]>::to_vec)
        .collect()
}

/// The stretches of digits in the text, as start and end.
fn numbers_in(text: &[u8]) -> Vec<(usize, usize)> {
    let mut found = Vec::new();
    let mut start = None;
    for (position, byte) in text.iter().enumerate() {
        match (byte.is_ascii_digit(), start) {
            (true, None) => start = Some(position),
            (false, Some(first)) => {
                found.push((first, position));
                start = None;
            }
            _ => {}
        }
    }
    found
}

fn odd_byte(random: &mut Random) -> u8 {
    if random.chance(20) {
        return random.below(256) as u8;
    }
    random.pick(b"0123456789ps() \n\r\t\0\x7f\x80\xff(leafcallthensiftaskp")
}

fn change_bytes(random: &mut Random, text: &mut Vec<u8>) {
    let position = random.index(text.len());
    match random.below(4) {
        0 => text[position] = odd_byte(random),
        1 => {
            let byte = odd_byte(random);
            text.insert(position, byte);
        }
        2 => {
            text.remove(position);
        }
        // The neighbour of a byte in the alphabet: ':' for '9', '/' for '0' and so on.
        _ => {
            let step = if random.chance(50) { 1 } else { 255 };
            text[position] = text[position].wrapping_add(step);
        }
    }
}

/// Lines that are put where they may not stand.
const STRAY_LINES: [&[u8]; 24] = [
    b"\n",
    b")\n",
    b"(fun\n",
    b"(then\n",
    b"(else\n",
    b"(task 1 0\n",
    b"(task 0 0\n",
    b"(task 1 0 0\n",
    b"(task 1 0 1048577\n",
    b"(leaf s 0 0)\n",
    b"(leaf p 1 0)\n",
    b"(leaf s 1048577 0)\n",
    b"(if s 0 0\n",
    b"(loop s 1 0 0\n",
    b"(loop s 0 0 0\n",
    b"(call s 0 0 0)\n",
    b"(call s 15 1 0)\n",
    b"(call s 16 0 0)\n",
    b"(leaf p 0 0)\n",
    b"(call p 15 0 0)\n",
    b"(loop p 1 0 1\n",
    b"(loop p 0 0 0\n",
    b"(if p 0 1\n",
    b" \n",
];

fn change_lines(random: &mut Random, text: &mut Vec<u8>) {
    let mut all = lines(text);
    let first = random.index(all.len());
    let second = random.index(all.len());
    match random.below(5) {
        0 => all.swap(first, second),
        1 => {
            let again = all[first].clone();
            all.insert(second, again);
        }
        2 => {
            let again = all[first].clone();
            all.insert(first, again);
        }
        3 => {
            all.remove(first);
        }
        _ => {
            all.insert(first, random.pick(&STRAY_LINES).to_vec());
        }
    }
    *text = all.concat();
}

fn change_number(random: &mut Random, text: &mut Vec<u8>) {
    let found = numbers_in(text);
    if found.is_empty() {
        return;
    }
    let (start, end) = random.pick(&found);
    let edges = edge_numbers();
    let new = match random.below(4) {
        0 => [&b"0"[..], &text[start..end]].concat(),
        _ => edges[random.index(edges.len())].clone(),
    };
    text.splice(start..end, new);
}

/// The fields of one line that closes itself, changed among themselves: another
/// target for a call, or C and M in each other's place.
fn change_fields(random: &mut Random, text: &mut Vec<u8>) {
    let mut all = lines(text);
    let at = random.index(all.len());
    let line = String::from_utf8_lossy(&all[at]).into_owned();
    let mut fields: Vec<String> = line.split(' ').map(str::to_string).collect();
    let count = fields.len();
    if fields[0] == "(call" && count == 5 && random.chance(60) {
        fields[2] = random.below(17).to_string();
    } else if count >= 4 {
        let end = fields[count - 1].trim_start_matches(|c: char| c.is_ascii_digit());
        let (end, c) = (end.to_string(), fields[count - 2].clone());
        fields[count - 2] = fields[count - 1].trim_end_matches(&end).to_string();
        fields[count - 1] = c + &end;
    }
    all[at] = fields.join(" ").into_bytes();
    *text = all.concat();
}

/// A line with one of its fields, counted from 0, set to another.
fn with_field(line: &[u8], at: usize, field: &[u8]) -> Vec<u8> {
    let mut fields: Vec<&[u8]> = line.split(|&byte| byte == b' ').collect();
    fields[at] = field;
    fields.join(&b' ')
}

/// A leaf's line as that of a point that costs nothing: of a point C is set to 0, of a
/// silent leaf that costs nothing K to p. None where it is another line.
fn costless(line: &[u8]) -> Option<Vec<u8>> {
    let (point, isolated, _) = shape(line.strip_suffix(b"\n")?)?.leaf()?;
    let last = line.split(|&byte| byte == b' ').count() - 1;
    match (point, isolated) {
        (true, _) => Some(with_field(line, last - 1, b"0")),
        (false, 0) => Some(with_field(line, 1, b"p")),
        (false, _) => None,
    }
}

/// The lines that can be made those of points that cost nothing: where each stands,
/// counted from 0, and what it is made.
fn costless_lines(all: &[Vec<u8>]) -> Vec<(usize, Vec<u8>)> {
    let changed = all.iter().map(|line| costless(line)).enumerate();
    changed.filter_map(|(at, line)| Some((at, line?))).collect()
}

fn change_costs(random: &mut Random, text: &mut Vec<u8>) {
    let mut all = lines(text);
    let mut changed = costless_lines(&all);
    if !changed.is_empty() {
        let (at, line) = changed.swap_remove(random.index(changed.len()));
        all[at] = line;
        *text = all.concat();
    }
}

/// Every leaf that can be made a point that costs nothing made one, one at a time, with
/// the number of its line.
pub fn every_point_costless(text: &[u8]) -> Vec<(usize, Vec<u8>)> {
    let all = lines(text);
    let with = |(at, line): (usize, Vec<u8>)| {
        let mut changed = all.clone();
        changed[at] = line;
        (at + 1, changed.concat())
    };
    costless_lines(&all).into_iter().map(with).collect()
}

/// The text with the leaf on this line silent.
pub fn silenced(text: &[u8], line: usize) -> Vec<u8> {
    let mut all = lines(text);
    all[line - 1] = with_field(&all[line - 1], 1, b"s");
    all.concat()
}

/// A number more on the first line, or its last one dropped: another edition, or none.
fn change_edition(random: &mut Random, text: &mut Vec<u8>) {
    let mut all = lines(text);
    let numbers: [&[u8]; 8] = [b"0", b"1", b"9", b"1048576", b"1048577", b"00", b"01", b"x"];
    let line = all[0].strip_suffix(b"\n").unwrap_or(&all[0]);
    let mut fields: Vec<&[u8]> = line.split(|&byte| byte == b' ').collect();
    match fields.len() > 3 && random.chance(80) {
        true => drop(fields.pop()),
        false => fields.push(random.pick(&numbers)),
    }
    all[0] = [&fields.join(&b' '), &b"\n"[..]].concat();
    *text = all.concat();
}

/// Changes of the text's ends.
fn change_ends(random: &mut Random, text: &mut Vec<u8>) {
    match random.below(5) {
        0 => {
            text.pop();
        }
        1 => {
            let stop = random.index(text.len() + 1);
            text.truncate(stop);
        }
        2 => text.extend_from_slice(random.pick(&[&b"\n"[..], b")\n", b" ", b"(fun\n", b"\0"])),
        3 => {
            let all = lines(text);
            let stop = random.index(all.len() + 1);
            *text = all[..stop].concat();
        }
        _ => {
            text.remove(0);
        }
    }
}

/// One to three changes of any sort.
pub fn damaged(random: &mut Random, text: &[u8]) -> Vec<u8> {
    let mut text = text.to_vec();
    for _ in 0..1 + random.index(3) {
        if text.is_empty() {
            break;
        }
        match random.below(12) {
            0..=2 => change_bytes(random, &mut text),
            3 | 4 => change_lines(random, &mut text),
            5 | 6 => change_number(random, &mut text),
            7 | 8 => change_fields(random, &mut text),
            9 => change_costs(random, &mut text),
            10 => change_edition(random, &mut text),
            _ => change_ends(random, &mut text),
        }
    }
    text
}

/// Every number of the text replaced by every edge number, one at a time.
pub fn every_number_at_edges(text: &[u8]) -> Vec<Vec<u8>> {
    let mut all = Vec::new();
    for (start, end) in numbers_in(text) {
        for edge in edge_numbers() {
            all.push([&text[..start], &edge, &text[end..]].concat());
        }
    }
    all
}

/// Every single byte dropped, and every single byte doubled.
pub fn every_byte_dropped_or_doubled(text: &[u8]) -> Vec<Vec<u8>> {
    let dropped = (0..text.len()).map(|at| [&text[..at], &text[at + 1..]].concat());
    let doubled = (0..text.len()).map(|at| [&text[..=at], &text[at..]].concat());
    dropped.chain(doubled).collect()
}

/// One position of the text set to each of the 256 bytes.
pub fn every_byte_at(text: &[u8], position: usize) -> Vec<Vec<u8>> {
    (0..=255)
        .map(|byte| {
            let mut changed = text.to_vec();
            changed[position] = byte;
            changed
        })
        .collect()
}

/// Every pair of neighbouring lines swapped, every line dropped, every line doubled.
pub fn every_line_moved(text: &[u8]) -> Vec<Vec<u8>> {
    let all = lines(text);
    let mut texts = Vec::new();
    for at in 0..all.len() {
        let mut changed = all.clone();
        changed.remove(at);
        texts.push(changed.concat());
        changed = all.clone();
        changed.insert(at, all[at].clone());
        texts.push(changed.concat());
        if at + 1 < all.len() {
            changed = all.clone();
            changed.swap(at, at + 1);
            texts.push(changed.concat());
        }
    }
    texts
}

/// Every beginning of the text.
pub fn every_beginning(text: &[u8]) -> Vec<Vec<u8>> {
    (0..text.len()).map(|stop| text[..stop].to_vec()).collect()
}
