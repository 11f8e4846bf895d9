//! Trees that prove a plan cheapest, grown by branching on arcs.

use super::duals;
use super::files::{entry_length, fork_record, tree_file, Entry, Leaf};
use super::random::Random;
use super::space::{Grain, Space};
use crate::case::Case;
use crate::decisions::{exits_left, Decision, Exits, Side, DEEPEST};
use crate::leaf::{MOST_DUAL, MOST_VALUE};
use crate::tree::{Kind, HEAD, PAIR};

/// The value of an entry from which no trip gets home.
const DEAD_END: i64 = MOST_VALUE / 10;

#[derive(Clone, Debug)]
pub enum Record {
    Fork(u8, u8),
    Leaf(Leaf),
    Raw(Vec<u8>),
}

#[derive(Clone, Debug)]
pub struct Tree {
    pub kind: Kind,
    pub customers: usize,
    pub records: Vec<Record>,
}

impl Tree {
    pub fn file(&self) -> Vec<u8> {
        let records: Vec<Vec<u8>> = self
            .records
            .iter()
            .map(|record| match record {
                Record::Fork(from, to) => fork_record(*from, *to),
                Record::Leaf(leaf) => leaf.record(self.kind),
                Record::Raw(bytes) => bytes.clone(),
            })
            .collect();
        tree_file(self.kind, self.customers, &records)
    }

    /// Bytes of the file.
    pub fn length(&self) -> usize {
        let record = |record: &Record| match record {
            Record::Fork(..) => 3,
            Record::Leaf(leaf) => 13 + 8 * self.customers + leaf.entries.len() * entry_length(self.kind),
            Record::Raw(bytes) => bytes.len(),
        };
        HEAD + self.records.iter().map(|each| PAIR + record(each)).sum::<usize>()
    }

    /// Replaces a leaf by useless forks with the same leaf under each. It
    /// still holds there, since decisions only remove arcs.
    pub fn deepen(&mut self, random: &mut Random, at: usize, forks: usize) {
        let leaf = self.records[at].clone();
        let mut deep = Vec::new();
        let first_sides = random.percent(50);
        for k in 0..forks {
            let from = random.below(self.customers + 1) as u8;
            let to = (usize::from(from) + 1 + random.below(self.customers)) % (self.customers + 1);
            deep.push(Record::Fork(from, to as u8));
            if !first_sides || k + 1 == forks {
                deep.push(leaf.clone());
            }
        }
        let copies = if first_sides { forks } else { 1 };
        deep.extend(std::iter::repeat_n(leaf, copies));
        self.records.splice(at..=at, deep);
    }

    /// Repeats entries of a leaf until the file has at most `length` bytes and
    /// no more entry fits. Every file that held still holds.
    pub fn fill_up(&mut self, random: &mut Random, at: usize, length: usize) {
        let room = length.saturating_sub(self.length()) / entry_length(self.kind);
        if let Record::Leaf(leaf) = &mut self.records[at] {
            if leaf.entries.is_empty() {
                return;
            }
            for _ in 0..room {
                let copy = leaf.entries[random.below(leaf.entries.len())].clone();
                leaf.entries.push(copy);
            }
            random.shuffle(&mut leaf.entries);
        }
    }

    pub fn leaves(&self) -> Vec<usize> {
        (0..self.records.len()).filter(|&k| matches!(self.records[k], Record::Leaf(_))).collect()
    }
}

/// How the two sides of a decision are read. Trees of a wrong reading must be
/// denied where the two readings differ.
#[derive(Clone, Copy, Debug, PartialEq, Eq)]
pub enum Reading {
    Right,
    /// A forced arc out of the depot removes the other arcs out of it, one
    /// into the depot the others into it.
    DepotForced,
    /// The forced side comes first.
    Swapped,
}

pub struct Grower<'a> {
    pub case: &'a Case,
    pub kind: Kind,
    /// The cost of the plan to prove cheapest.
    pub cost: i64,
    pub scale: u16,
    pub grain: Grain,
    pub reading: Reading,
    /// How many corners a leaf may reach, how many records the tree may have.
    pub corner_limit: usize,
    pub record_limit: usize,
    /// Whether entries are kept that never answer a look-up.
    pub keep_hidden: bool,
    /// How many pivots the search for duals may take in each leaf.
    pub pivots: usize,
}

impl Grower<'_> {
    /// A tree for the cost. It is cut short where a limit is met, and its last
    /// leaf may then not hold.
    pub fn grow(&self) -> Option<Tree> {
        let mut records = Vec::new();
        self.branch(&mut Vec::new(), &mut records)?;
        Some(Tree { kind: self.kind, customers: self.case.customers, records })
    }

    /// A leaf for the branch under some decisions, without a search for duals.
    pub fn plain_leaf(&self, decisions: &[Decision]) -> Option<Leaf> {
        let exits = self.exits(decisions);
        let space = Space::explore(self.case, &exits, self.kind, self.grain, self.corner_limit)?;
        self.leaf(&space, &self.plain_duals(&exits)).map(|(leaf, _)| leaf)
    }

    /// Adds the records of the branch under some decisions.
    fn branch(&self, decisions: &mut Vec<Decision>, records: &mut Vec<Record>) -> Option<()> {
        let exits = self.exits(decisions);
        let space = Space::explore(self.case, &exits, self.kind, self.grain, self.corner_limit)?;
        let fine = 10.0 * (self.cost as f64 + 10.0);
        let solution = duals::solve(self.case, &space, fine, self.pivots);
        let flows = solution.as_ref().map_or(&[][..], |solution| &solution.flows);
        let solved = solution.as_ref().and_then(|solution| self.leaf(&space, &solution.duals));
        let plain = self.leaf(&space, &self.plain_duals(&exits));
        let (leaf, bound) = solved.into_iter().chain(plain).max_by_key(|(_, bound)| *bound)?;

        let holds = bound > i64::from(self.scale) * (self.cost - 1);
        let full = decisions.len() == DEEPEST || records.len() >= self.record_limit;
        let arc = if holds || full { None } else { self.open_arc(flows, decisions) };
        let Some((from, to)) = arc else {
            records.push(Record::Leaf(leaf));
            return Some(());
        };
        records.push(Record::Fork(from as u8, to as u8));
        let sides = match self.reading {
            Reading::Swapped => [Side::Force, Side::Forbid],
            _ => [Side::Forbid, Side::Force],
        };
        for side in sides {
            decisions.push(Decision { from, to, side });
            self.branch(decisions, records)?;
            decisions.pop();
        }
        Some(())
    }

    fn exits(&self, decisions: &[Decision]) -> Exits {
        let mut exits = exits_left(self.case, decisions);
        if self.reading == Reading::DepotForced {
            for decision in decisions.iter().filter(|decision| decision.side == Side::Force) {
                if decision.from == 0 {
                    exits[0] &= 1 << decision.to;
                }
                if decision.to == 0 {
                    let others = (1..=self.case.customers).filter(|&from| from != decision.from);
                    others.for_each(|from| exits[from] &= !1);
                }
            }
        }
        exits
    }

    /// Duals under which no arc has a price below 0.
    fn plain_duals(&self, exits: &Exits) -> Vec<f64> {
        let cheapest_into = |to: usize| {
            (0..=self.case.customers)
                .filter(|&from| exits[from] >> to & 1 == 1)
                .filter_map(|from| Some(self.case.arc(from, to)?.cost))
                .min()
        };
        std::iter::once(0.0)
            .chain((1..=self.case.customers).map(|to| f64::from(cheapest_into(to).unwrap_or(0))))
            .collect()
    }

    /// The leaf for duals rounded to the scale, with values as great as the
    /// rule allows, and its bound.
    fn leaf(&self, space: &Space, duals: &[f64]) -> Option<(Leaf, i64)> {
        let scale = i64::from(self.scale);
        let duals: Vec<i64> = duals
            .iter()
            .map(|dual| ((dual * scale as f64 + 1e-6).round() as i64).clamp(-MOST_DUAL, MOST_DUAL))
            .collect();
        let sweep = space.sweep(DEAD_END, |cost, to| scale * i64::from(cost) - duals[to])?;
        let (least, most) = (i64::from(self.case.least), i64::from(self.case.most));
        let van_price = match sweep.depot {
            Some((price, _)) => price.clamp(-MOST_VALUE, MOST_VALUE),
            None => DEAD_END,
        };
        let bound = duals.iter().sum::<i64>() + van_price * if van_price < 0 { most } else { least };
        let entries = self.entries(space, &sweep.values);
        let in_range = entries.iter().all(|entry| entry.value.abs() <= MOST_VALUE);
        let leaf = Leaf { scale: self.scale, van_price, duals: duals[1..].to_vec(), entries };
        in_range.then_some((leaf, bound))
    }

    /// The entries of all corners, mostly without those that never answer.
    fn entries(&self, space: &Space, values: &[i64]) -> Vec<Entry> {
        let mut order: Vec<usize> = (0..values.len()).collect();
        order.sort_unstable_by_key(|&k| (space.nodes[k].place, -values[k], space.nodes[k].state));
        let mut entries: Vec<Entry> = Vec::new();
        let mut group = 0;
        for k in order {
            let node = &space.nodes[k];
            if entries.last().is_some_and(|last| usize::from(last.place) != node.place) {
                group = entries.len();
            }
            let corner = [u64::from(node.state.0), u64::from(node.state.1)];
            let answers =
                entries[group..].iter().all(|entry| entry.corner[0] > corner[0] || entry.corner[1] > corner[1]);
            if self.keep_hidden || answers {
                entries.push(Entry { place: node.place as u8, value: values[k], corner });
            }
        }
        entries
    }

    /// An arc that is not decided yet, as near as can be to being driven by
    /// half. Where the reading differs at the depot, arcs there come first.
    fn open_arc(&self, flows: &[((usize, usize), f64)], decisions: &[Decision]) -> Option<(usize, usize)> {
        let depot_first = self.reading == Reading::DepotForced;
        let distance = |&((from, to), flow): &((usize, usize), f64)| {
            let inside = from != 0 && to != 0;
            (flow - 0.5).abs() + f64::from(u8::from(depot_first && inside))
        };
        flows
            .iter()
            .filter(|(_, flow)| *flow > 0.01)
            .filter(|((from, to), _)| !decisions.iter().any(|known| known.from == *from && known.to == *to))
            .min_by(|a, b| distance(a).total_cmp(&distance(b)))
            .map(|(arc, _)| *arc)
    }
}
