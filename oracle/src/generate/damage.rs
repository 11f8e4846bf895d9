//! Damage to the three files, so that every denial is met in many places.

use super::files::Leaf;
use super::random::Random;
use super::trees::{Record, Tree};
use crate::decisions::DEEPEST;
use crate::leaf::{MOST_DUAL, MOST_VALUE};
use crate::tree::{Kind, MOST_RECORDS};

/// Words that stand badly in some place of a text, or well by chance.
const WORDS: &[&str] = &[
    "0",
    "1",
    "2",
    "7",
    "00",
    "07",
    "+7",
    "-7",
    "7.0",
    "0x7",
    "x",
    "-",
    "--",
    "M",
    "m",
    "1/1",
    "1/",
    "/1",
    "/",
    "1//1",
    "1/1/1",
    "01/1",
    "1/01",
    "-/-",
    "1/-",
    "0/0",
    "60",
    "61",
    "255",
    "256",
    "10000",
    "10001",
    "60000",
    "60001",
    "1000000",
    "1000001",
    "999999999",
    "1000000000",
    "4294967297",
    "18446744073709551617",
    "1000000/60000",
    "1000001/60000",
    "1000000/60001",
    "1000001/x",
    "1000000000/1",
    "1/1000000000",
    "1\t1",
    "\t",
    "1\r",
    "\r",
    "\0",
    "\u{feff}M",
    "٣",
];

const SEPARATORS: &[&[u8]] = &[b"  ", b"\n", b"\t", b"\r\n", b"\r", b"\0", b" \n", b"\n\n", b"\x0b", b"\xa0", b""];

/// Damages a text at one place.
pub fn text(random: &mut Random, text: &[u8]) -> Vec<u8> {
    let mut bytes = text.to_vec();
    let words = words(text);
    match random.below(14) {
        // A word is replaced, left out, doubled or joined with the next.
        0..=4 if !words.is_empty() => {
            let (start, end) = random.pick(&words);
            let word = random.pick(WORDS).bytes();
            bytes.splice(start..end, word);
        }
        5 if !words.is_empty() => {
            let (start, end) = random.pick(&words);
            bytes.drain(start..end);
        }
        6 if !words.is_empty() => {
            let (start, end) = random.pick(&words);
            let copy = [b" ", &text[start..end]].concat();
            bytes.splice(end..end, copy);
        }
        7 if !words.is_empty() => {
            let (_, end) = random.pick(&words);
            let separator = random.pick(SEPARATORS);
            bytes.splice(end..(end + 1).min(bytes.len()), separator.iter().copied());
        }
        // A byte is changed, put in or left out; the text is cut or goes on.
        8 if !bytes.is_empty() => {
            let at = random.below(bytes.len());
            bytes[at] = random.bits() as u8;
        }
        9 => {
            let at = random.below(bytes.len() + 1);
            let byte = random.pick(b" \n\t\r0159-/M\0\xff");
            bytes.insert(at, byte);
        }
        10 if !bytes.is_empty() => {
            bytes.remove(random.below(bytes.len()));
        }
        11 => bytes.truncate(random.below(bytes.len() + 1)),
        12 => bytes.extend(random.pick(SEPARATORS)),
        // A line is left out or doubled.
        _ => {
            let mut lines: Vec<&[u8]> = text.split_inclusive(|&byte| byte == b'\n').collect();
            if !lines.is_empty() {
                let at = random.below(lines.len());
                let line = lines.remove(at);
                if random.percent(40) {
                    lines.insert(at, line);
                    lines.insert(at, line);
                } else if random.percent(30) {
                    lines.push(line);
                }
            }
            return lines.concat();
        }
    }
    bytes
}

/// Puts in spaces that change no word.
pub fn spaced(random: &mut Random, text: &[u8]) -> Vec<u8> {
    let mut spaced = Vec::new();
    for &byte in text {
        let beside_word = byte == b' ' || byte == b'\n';
        if beside_word && random.percent(20) {
            spaced.resize(spaced.len() + 1 + random.below(3), b' ');
        }
        spaced.push(byte);
        if beside_word && spaced.len() < text.len() && random.percent(5) {
            spaced.push(b' ');
        }
    }
    spaced
}

/// Start and end of each word.
fn words(text: &[u8]) -> Vec<(usize, usize)> {
    let mut words = Vec::new();
    let mut start = None;
    for (at, &byte) in text.iter().chain(b" ").enumerate() {
        let separates = byte == b' ' || byte == b'\n';
        match start {
            Some(from) if separates => {
                words.push((from, at));
                start = None;
            }
            None if !separates => start = Some(at),
            _ => (),
        }
    }
    words
}

/// Changes a listing at one place.
pub fn listing(random: &mut Random, listing: &[u8], customers: usize) -> Vec<u8> {
    let mut changed = listing.to_vec();
    let at = random.below(listing.len());
    let other = random.below(listing.len());
    let number = random.below(customers + 1) as u8;
    match random.below(10) {
        0 => changed.swap(at, other),
        1 => changed[at] = number,
        2 => changed[at] = random.pick(&[0, customers as u8 + 1, 61, 128, 200, 255]),
        3 => changed.insert(at, number),
        4 => changed.insert(at, 0),
        5 => {
            changed.remove(at);
        }
        6 => {
            changed.pop();
        }
        7 => changed.push(number),
        // Two routes become one.
        8 => {
            let ends: Vec<usize> = (0..listing.len() - 1).filter(|&k| listing[k] == 0).collect();
            if !ends.is_empty() {
                changed.remove(random.pick(&ends));
            }
        }
        // A route is driven backwards.
        _ => {
            let mut routes: Vec<&mut [u8]> = changed.split_mut(|&stop| stop == 0).collect();
            let route = random.below(routes.len());
            routes[route].reverse();
        }
    }
    changed
}

/// Changes the records of a tree at one place.
pub fn tree(random: &mut Random, tree: &Tree) -> Tree {
    let mut tree = tree.clone();
    let leaves = tree.leaves();
    if !leaves.is_empty() && random.percent(75) {
        let at = random.pick(&leaves);
        let kind = tree.kind;
        if let Record::Leaf(leaf) = &mut tree.records[at] {
            if random.percent(12) {
                let record = raw_leaf(random, leaf, kind);
                tree.records[at] = Record::Raw(record);
            } else {
                change_leaf(random, leaf);
            }
        }
    } else {
        change_records(random, &mut tree);
    }
    tree
}

fn nudge(random: &mut Random, value: &mut i64) {
    *value += random.pick(&[1, 1, 1, -1, -1, -1, 2, -2, 10, -10, 1000, -1000]);
}

/// Puts a value at an end of its range, beyond it, or far off.
fn throw(random: &mut Random, value: &mut i64, bound: i64) {
    *value = random.pick(&[bound, -bound, bound + 1, -bound - 1, i64::MAX, i64::MIN, 0, 1 << 32, -1]);
}

fn change_leaf(random: &mut Random, leaf: &mut Leaf) {
    let dual = random.below(leaf.duals.len());
    if leaf.entries.is_empty() || random.percent(45) {
        match random.below(8) {
            0 => leaf.scale = random.pick(&[0, 1, 2, 999, 1_000, 1_001, 32_768, 65_535]),
            1 => leaf.scale = leaf.scale.wrapping_add(random.pick(&[1, u16::MAX])),
            2 | 3 => nudge(random, &mut leaf.van_price),
            4 => throw(random, &mut leaf.van_price, MOST_VALUE),
            5 | 6 => nudge(random, &mut leaf.duals[dual]),
            _ => throw(random, &mut leaf.duals[dual], MOST_DUAL),
        }
        return;
    }
    let customers = leaf.duals.len() as u8;
    let at = random.below(leaf.entries.len());
    let other = random.below(leaf.entries.len());
    let part = random.below(2);
    let entry = &mut leaf.entries[at];
    match random.below(14) {
        0..=3 => nudge(random, &mut entry.value),
        4 => throw(random, &mut entry.value, MOST_VALUE),
        5 => entry.place = random.pick(&[0, 1, customers, customers + 1, 61, 128, 255]),
        6 => entry.place = random.within(1..=u32::from(customers)) as u8,
        7 => entry.corner[part] = entry.corner[part].wrapping_add(random.pick(&[1, u64::MAX])),
        8 => {
            let most = [60_000, 10_000][part];
            let far = [0, most, most + 1, most + 1, most + 1, 10_001, 1 << 16, 1 << 32, 1 << 63, u64::MAX];
            entry.corner[part] = random.pick(&far);
        }
        // The low half of the word alone would be a readable corner.
        9 => entry.corner[part] += 1 << random.pick(&[14, 16, 32, 48, 63]),
        10 => {
            leaf.entries.remove(at);
        }
        11 => leaf.entries.swap(at, other),
        12 => {
            let copy = leaf.entries[at].clone();
            leaf.entries.insert(other, copy);
        }
        _ => random.shuffle(&mut leaf.entries),
    }
}

/// A leaf's record with a wrong length, letter or count.
fn raw_leaf(random: &mut Random, leaf: &Leaf, kind: Kind) -> Vec<u8> {
    let mut record = leaf.record(kind);
    let count_at = 11 + 8 * leaf.duals.len();
    match random.below(6) {
        0 => record[0] = random.pick(b"AlMZ\0\xff"),
        1 => record.truncate(1 + random.below(record.len())),
        2 => record.extend(std::iter::repeat_n(0, 1 + random.below(30))),
        3 => record[count_at] = record[count_at].wrapping_add(random.pick(&[1, 255])),
        4 => record[count_at + 1] = record[count_at + 1].wrapping_add(random.pick(&[1, 255])),
        _ => {
            let other = if kind == Kind::Pair { Kind::Time } else { Kind::Pair };
            record = leaf.record(other);
        }
    }
    record
}

fn change_records(random: &mut Random, tree: &mut Tree) {
    let customers = tree.customers as u8;
    let count = tree.records.len();
    let at = random.below(count);
    let place = |random: &mut Random| random.within(0..=u32::from(customers)) as u8;
    match random.below(13) {
        0 => {
            let (from, to) = (place(random), place(random));
            tree.records.insert(at, Record::Fork(from, to));
        }
        1 => {
            let bad = random.pick(&[(1, 1), (0, 0), (customers + 1, 0), (0, customers + 1), (255, 1), (1, 255)]);
            tree.records.insert(at, Record::Fork(bad.0, bad.1));
        }
        2 => {
            tree.records.remove(at);
        }
        3 => {
            let copy = tree.records[at].clone();
            tree.records.insert(random.below(count + 1), copy);
        }
        4 => tree.records.swap(at, random.below(count)),
        5 => tree.records.truncate(at),
        // Records after the finish.
        6 | 7 => {
            let raw: &[&[u8]] =
                &[b"A", b"L", b"Z", b"A\x01", b"A\x00\x01\x02", b"A\x01\x01", b"A\x00\x01", b"\0", b"A\xff\xff"];
            let record = random.pick(raw).to_vec();
            tree.records.push(Record::Raw(record));
        }
        8 => {
            let raw: &[&[u8]] = &[b"A", b"L", b"Z", b"A\x00", b"A\x00\x01\x02", b"a\x00\x01", b"\0", b"LL", b"", b""];
            let record = random.pick(raw).to_vec();
            tree.records.insert(at, Record::Raw(record));
        }
        9 => {
            let copy = tree.records[at].clone();
            tree.records.push(copy);
        }
        10 => {
            tree.kind = random.pick(&[Kind::Time, Kind::Load, Kind::Pair]);
        }
        // As deep as may be, and one deeper.
        11 => {
            let forks = random.pick(&[DEEPEST - 1, DEEPEST, DEEPEST, DEEPEST + 1]);
            let fork = Record::Fork(0, 1);
            tree.records.splice(at..at, std::iter::repeat_n(fork, forks));
            if random.percent(40) {
                let raw: &[&[u8]] = &[b"A", b"A\x01\x01", b"A\xff\x00", b"A\x00\x01", b"L"];
                let record = random.pick(raw).to_vec();
                tree.records.insert(at + forks, Record::Raw(record));
            }
        }
        // As many records as may be, and one more.
        _ => {
            let fork = Record::Fork(1, 0);
            let more = (MOST_RECORDS + random.below(2)).saturating_sub(count);
            tree.records.extend(std::iter::repeat_n(fork, more));
        }
    }
    if tree.records.is_empty() {
        tree.records.push(Record::Raw(b"Z".to_vec()));
    }
}

/// Damages the bytes of a tree file.
pub fn tree_bytes(random: &mut Random, file: &[u8]) -> Vec<u8> {
    let mut bytes = file.to_vec();
    let count = usize::from(u16::from_le_bytes([file[6], file[7]]));
    let directory_end = (8 + 8 * count).min(file.len());
    let any = random.below(file.len());
    match random.below(15) {
        0 => bytes[any] ^= 1 << random.below(8),
        1 => bytes[any] = random.bits() as u8,
        2 => bytes.truncate(any),
        3 => bytes.truncate(random.below(directory_end + 1)),
        4 => bytes.truncate(random.pick(&[0, 4, 7, 8, 9, 15, 16]).min(file.len())),
        5 => bytes.resize(file.len() + 1 + random.below(9), 0),
        6 => bytes[random.below(4)] ^= 0x20,
        7 => bytes[4] = random.pick(&[0, 1, 2, 3, 4, 129, 255]),
        8 => bytes[5] = random.pick(&[0, 1, 2, 3, 60, 61, 255, bytes[5].wrapping_add(1), bytes[5].wrapping_sub(1)]),
        9 => {
            let counts = [0, 1, 2, 2_000, 2_001, 65_535, count as u16 + 1, (count as u16).wrapping_sub(1)];
            bytes[6..8].copy_from_slice(&random.pick(&counts).to_le_bytes());
        }
        // A field of a pair.
        10 | 11 if directory_end >= 16 => {
            let field = 8 + 4 * random.below((directory_end - 8) / 4);
            let old = field_at(&bytes, field);
            let new = random.pick(&[
                old.wrapping_add(1),
                old.wrapping_sub(1),
                0,
                u32::MAX,
                1 << 31,
                old | 1 << 31,
                old.wrapping_add(1 << 16),
                file.len() as u32,
                65_536,
            ]);
            set_field(&mut bytes, field, new);
        }
        // A byte moves from one record to the next.
        12 if count >= 2 && directory_end == 8 + 8 * count => {
            let pair = 8 + 8 * random.below(count - 1);
            let up = if random.percent(50) { 1 } else { u32::MAX };
            for (field, change) in [(pair + 4, up), (pair + 8, up), (pair + 12, up.wrapping_neg())] {
                let moved = field_at(&bytes, field).wrapping_add(change);
                set_field(&mut bytes, field, moved);
            }
        }
        // A record runs so far that its end, cut to four bytes, lies before
        // its start; the next one is there.
        13 if count >= 2 && directory_end == 8 + 8 * count => {
            let pair = 8 + 8 * random.below(count - 1);
            let end = field_at(&bytes, pair + 8).wrapping_add(field_at(&bytes, pair + 12));
            let start = field_at(&bytes, pair);
            let wrapped = random.within(0..=start - 1);
            set_field(&mut bytes, pair + 4, wrapped.wrapping_sub(start));
            set_field(&mut bytes, pair + 8, wrapped);
            set_field(&mut bytes, pair + 12, end.wrapping_sub(wrapped));
        }
        _ => {
            bytes.remove(any);
        }
    }
    bytes
}

/// A field of the directory.
fn field_at(bytes: &[u8], at: usize) -> u32 {
    u32::from_le_bytes([bytes[at], bytes[at + 1], bytes[at + 2], bytes[at + 3]])
}

fn set_field(bytes: &mut [u8], at: usize, value: u32) {
    bytes[at..at + 4].copy_from_slice(&value.to_le_bytes());
}
