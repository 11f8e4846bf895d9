//! The case and its text.

use crate::fault::Denial;
use crate::words::{number, word_at, Word, LINE_FEED, SPACE};
use std::ops::RangeInclusive;

pub const MOST_CUSTOMERS: u32 = 60;
pub const MOST_ROUTES: u32 = 60;
pub const MOST_LOAD: u32 = 10_000;
pub const LAST_MINUTE: u32 = 60_000;
pub const MOST_COST: u32 = 1_000_000;

/// The record of a place. Place 0 is the depot.
#[derive(Clone, Copy, Debug, Default, PartialEq, Eq)]
pub struct Place {
    pub load: u32,
    pub opening: u32,
    pub closing: u32,
    pub service: u32,
}

#[derive(Clone, Copy, Debug, Default, PartialEq, Eq)]
pub struct Arc {
    pub cost: u32,
    pub travel: u32,
}

#[derive(Clone, Debug, PartialEq, Eq)]
pub struct Case {
    pub customers: usize,
    pub capacity: u32,
    pub least: u32,
    pub most: u32,
    /// The depot, then the customers.
    pub places: Vec<Place>,
    /// The arcs row by row; where there is none, a zero one stands in.
    arcs: Vec<Arc>,
    /// For each place the ends of the arcs out of it, as bits.
    exits: Vec<u64>,
}

impl Case {
    /// A case of that many customers without arcs.
    pub fn new(customers: usize) -> Self {
        let places = customers + 1;
        Case {
            customers,
            capacity: 0,
            least: 0,
            most: 0,
            places: vec![Place::default(); places],
            arcs: vec![Arc::default(); places * places],
            exits: vec![0; places],
        }
    }

    pub fn arc(&self, from: usize, to: usize) -> Option<Arc> {
        let present = self.exits[from] >> to & 1 == 1;
        present.then(|| self.row(from)[to])
    }

    pub fn set_arc(&mut self, from: usize, to: usize, arc: Option<Arc>) {
        let width = self.customers + 1;
        self.arcs[from * width + to] = arc.unwrap_or_default();
        match arc {
            Some(_) => self.exits[from] |= 1 << to,
            None => self.exits[from] &= !(1 << to),
        }
    }

    /// The arcs out of a place, by their ends. Only those in `exits` exist.
    pub fn row(&self, from: usize) -> &[Arc] {
        let width = self.customers + 1;
        &self.arcs[from * width..(from + 1) * width]
    }

    /// For each place the ends of the arcs out of it, as bits.
    pub fn exits(&self) -> &[u64] {
        &self.exits
    }
}

/// Reads a case text.
pub fn read(text: &[u8]) -> Result<Case, Denial> {
    let mut lines = Lines { text, at: 0 };

    let mark = lines.word()?;
    if mark.bytes != b"M" {
        return Err(Denial::at(1, mark.at));
    }
    let customers = lines.number(1..=MOST_CUSTOMERS)? as usize;
    let mut case = Case::new(customers);
    case.capacity = lines.number(0..=MOST_LOAD)?;
    case.least = lines.number(0..=MOST_ROUTES)?;
    case.most = lines.number(case.least..=MOST_ROUTES)?;
    lines.end_line()?;

    for i in 0..=customers {
        let depot = i == 0;
        let load = lines.number(0..=if depot { 0 } else { MOST_LOAD })?;
        let opening = lines.number(0..=LAST_MINUTE)?;
        let closing = lines.number(opening..=LAST_MINUTE)?;
        let service = lines.number(0..=if depot { 0 } else { LAST_MINUTE })?;
        case.places[i] = Place { load, opening, closing, service };
        lines.end_line()?;
    }

    for i in 0..=customers {
        for j in 0..=customers {
            let word = lines.word()?;
            if word.bytes != b"-" {
                if i == j {
                    return Err(Denial::at(1, word.at));
                }
                case.set_arc(i, j, Some(arc(word)?));
            }
        }
        lines.end_line()?;
    }
    lines.end_text()?;
    Ok(case)
}

/// The arc of a word of the form cost, `/`, travel.
fn arc(word: Word) -> Result<Arc, Denial> {
    let form = || {
        let slash = word.bytes.iter().position(|&byte| byte == b'/')?;
        let cost = number(&word.bytes[..slash])?;
        let travel = number(&word.bytes[slash + 1..])?;
        Some(Arc { cost, travel })
    };
    let arc = form().ok_or(Denial::at(1, word.at))?;
    if arc.cost > MOST_COST || arc.travel > LAST_MINUTE {
        return Err(Denial::at(3, word.at));
    }
    Ok(arc)
}

/// Reads lines of words from the left.
struct Lines<'a> {
    text: &'a [u8],
    at: usize,
}

impl<'a> Lines<'a> {
    fn skip_spaces(&mut self) {
        while self.text.get(self.at) == Some(&SPACE) {
            self.at += 1;
        }
    }

    /// The next word of the line, which is due.
    fn word(&mut self) -> Result<Word<'a>, Denial> {
        self.skip_spaces();
        let word = word_at(self.text, self.at);
        if word.bytes.is_empty() {
            return Err(Denial::at(2, self.at));
        }
        self.at += word.bytes.len();
        Ok(word)
    }

    /// The next word, which is due to be a number in the range.
    fn number(&mut self, range: RangeInclusive<u32>) -> Result<u32, Denial> {
        let word = self.word()?;
        let value = number(word.bytes).ok_or(Denial::at(1, word.at))?;
        if range.contains(&value) {
            Ok(value)
        } else {
            Err(Denial::at(3, word.at))
        }
    }

    fn end_line(&mut self) -> Result<(), Denial> {
        self.skip_spaces();
        if self.text.get(self.at) != Some(&LINE_FEED) {
            return Err(Denial::at(2, self.at));
        }
        self.at += 1;
        Ok(())
    }

    fn end_text(&self) -> Result<(), Denial> {
        if self.at < self.text.len() {
            return Err(Denial::at(2, self.at));
        }
        Ok(())
    }
}
