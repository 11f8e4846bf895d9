//! The plain method: entries in the order of the record, arcs by rising end,
//! and each look-up from the greatest value of a place down.

use crate::case::{Case, MOST_CUSTOMERS};
use crate::decisions::{ends, Exits};
use crate::leaf::{Broken, Entry, Leaf, Potentials};
use crate::measure::Measure;
use std::cmp::Reverse;

/// The corners and values of a leaf's entries by place, each group in falling
/// value, so that the first corner at most a state ends the look-up.
pub struct PlainPotentials<M: Measure> {
    groups: [Vec<(M::State, i64)>; MOST_CUSTOMERS as usize + 1],
}

impl<M: Measure> Default for PlainPotentials<M> {
    fn default() -> Self {
        PlainPotentials { groups: [const { Vec::new() }; MOST_CUSTOMERS as usize + 1] }
    }
}

impl<M: Measure> Potentials for PlainPotentials<M> {
    type Measure = M;

    fn fill(&mut self, customers: usize, entries: &mut [Entry<M>]) {
        let groups = &mut self.groups[..=customers];
        groups.iter_mut().for_each(Vec::clear);
        for entry in entries.iter() {
            groups[entry.place].push((entry.corner, entry.value));
        }
        for group in groups {
            group.sort_unstable_by_key(|&(_, value)| Reverse(value));
        }
    }

    fn at(&self, place: usize, state: M::State) -> Option<i64> {
        if place == 0 {
            return Some(0);
        }
        let first = self.groups[place].iter().find(|&&(corner, _)| M::at_most(corner, state));
        first.map(|&(_, value)| value)
    }

    fn first_broken(&self, leaf: &Leaf<M>, case: &Case, exits: &Exits) -> Option<Broken> {
        for entry in &leaf.entries {
            let from = entry.place;
            let broken =
                ends(exits[from]).find(|&to| !self.allow(&leaf.priced_arc(case, from, to), entry.corner, entry.value));
            if let Some(to) = broken {
                return Some((entry.number, (from, to)));
            }
        }
        None
    }
}
