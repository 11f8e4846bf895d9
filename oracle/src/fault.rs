//! Denials, and the faults that are printed for them.

use std::fmt;

/// A rule that is broken: its number, the arc that it names (0, 0 for none)
/// and the place.
#[derive(Clone, Copy, Debug, PartialEq, Eq)]
pub struct Denial {
    pub number: u8,
    pub arc: (usize, usize),
    pub place: usize,
}

impl Denial {
    /// A denial that names no arc.
    pub fn at(number: u8, place: usize) -> Self {
        Denial { number, arc: (0, 0), place }
    }

    pub fn on_arc(number: u8, arc: (usize, usize), place: usize) -> Self {
        Denial { number, arc, place }
    }

    pub fn outside_records(self, part: Part) -> Fault {
        Fault { denial: self, part, node: 0 }
    }

    /// The denial of a record of the tree file, with its place counted from
    /// the file's first byte.
    pub fn in_record(self, node: usize, offset: usize) -> Fault {
        let denial = Denial { place: self.place + offset, ..self };
        Fault { denial, part: Part::Tree, node }
    }
}

/// The file that a fault is in.
#[derive(Clone, Copy, Debug, PartialEq, Eq)]
pub enum Part {
    Case,
    Plan,
    Tree,
}

impl fmt::Display for Part {
    fn fmt(&self, f: &mut fmt::Formatter<'_>) -> fmt::Result {
        f.write_str(match self {
            Part::Case => "case",
            Part::Plan => "plan",
            Part::Tree => "tree",
        })
    }
}

#[derive(Clone, Copy, Debug, PartialEq, Eq)]
pub struct Fault {
    pub denial: Denial,
    pub part: Part,
    pub node: usize,
}

impl fmt::Display for Fault {
    fn fmt(&self, f: &mut fmt::Formatter<'_>) -> fmt::Result {
        let Fault { denial: Denial { number, arc: (from, to), place }, part, node } = self;
        write!(f, "fault {number} {part} node {node} arc {from} {to} place {place}")
    }
}
