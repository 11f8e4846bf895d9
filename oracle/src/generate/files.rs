//! Writes cases, plans and trees as the three files.

use crate::case::Case;
use crate::check::FORK_LETTER;
use crate::leaf;
use crate::tree::{Kind, HEAD, MARK, PAIR};

/// The contents of the three files that `judge` reads.
#[derive(Clone, Debug, PartialEq, Eq)]
pub struct Files {
    pub case: Vec<u8>,
    pub plan: Vec<u8>,
    pub tree: Vec<u8>,
}

pub fn case_text(case: &Case) -> Vec<u8> {
    let mut lines = vec![format!("M {} {} {} {}", case.customers, case.capacity, case.least, case.most)];
    for place in &case.places {
        lines.push(format!("{} {} {} {}", place.load, place.opening, place.closing, place.service));
    }
    for i in 0..=case.customers {
        let words: Vec<String> = (0..=case.customers)
            .map(|j| match case.arc(i, j) {
                Some(arc) => format!("{}/{}", arc.cost, arc.travel),
                None => "-".into(),
            })
            .collect();
        lines.push(words.join(" "));
    }
    lines.join("\n").into_bytes().into_iter().chain(*b"\n").collect()
}

pub fn plan_text(listing: &[u8]) -> Vec<u8> {
    let words: Vec<String> = listing.iter().map(u8::to_string).collect();
    (words.join(" ") + "\n").into_bytes()
}

#[derive(Clone, Debug, PartialEq, Eq)]
pub struct Entry {
    pub place: u8,
    pub value: i64,
    /// The time and the load; a leaf by one of them leaves out the other.
    pub corner: [u64; 2],
}

#[derive(Clone, Debug, PartialEq, Eq)]
pub struct Leaf {
    pub scale: u16,
    pub van_price: i64,
    pub duals: Vec<i64>,
    pub entries: Vec<Entry>,
}

impl Leaf {
    pub fn record(&self, kind: Kind) -> Vec<u8> {
        let mut record = vec![leaf::LETTER];
        record.extend(self.scale.to_le_bytes());
        record.extend(self.van_price.to_le_bytes());
        record.extend(self.duals.iter().flat_map(|dual| dual.to_le_bytes()));
        record.extend((self.entries.len() as u16).to_le_bytes());
        for entry in &self.entries {
            record.push(entry.place);
            record.extend(entry.value.to_le_bytes());
            let words = match kind {
                Kind::Time => &entry.corner[..1],
                Kind::Load => &entry.corner[1..],
                Kind::Pair => &entry.corner[..],
            };
            record.extend(words.iter().flat_map(|word| word.to_le_bytes()));
        }
        record
    }
}

pub fn fork_record(from: u8, to: u8) -> Vec<u8> {
    vec![FORK_LETTER, from, to]
}

pub fn tree_file(kind: Kind, customers: usize, records: &[Vec<u8>]) -> Vec<u8> {
    let mut file = MARK.to_vec();
    file.push(kind_byte(kind));
    file.push(customers as u8);
    file.extend((records.len() as u16).to_le_bytes());
    let mut offset = HEAD + PAIR * records.len();
    for record in records {
        file.extend((offset as u32).to_le_bytes());
        file.extend((record.len() as u32).to_le_bytes());
        offset += record.len();
    }
    file.extend(records.concat());
    file
}

pub fn kind_byte(kind: Kind) -> u8 {
    match kind {
        Kind::Time => 1,
        Kind::Load => 2,
        Kind::Pair => 3,
    }
}

/// How many bytes an entry takes.
pub fn entry_length(kind: Kind) -> usize {
    match kind {
        Kind::Time | Kind::Load => 17,
        Kind::Pair => 25,
    }
}
