//! The states that trips reach under a measure, and potentials over them.
//!
//! A trip here may visit a customer repeatedly, as in the leaf rule.

use crate::case::Case;
use crate::decisions::{ends, Exits};
use crate::tree::Kind;
use std::collections::HashMap;
use std::ops::Add;

/// A time and a load. The one that a measure does not count stays 0.
pub type State = (u32, u32);

pub struct Node {
    pub place: usize,
    pub state: State,
    /// The cost of the arc home, where the step home exists.
    home: Option<u32>,
    /// The cost and the node of each step to a customer.
    steps: Vec<(u32, usize)>,
}

pub struct Space {
    /// In falling order of states, so that steps mostly lead to nodes before.
    pub nodes: Vec<Node>,
    /// The cost and the node of each step out of the depot.
    starts: Vec<(u32, usize)>,
}

/// Values of all nodes, and the value at the depot with the first node of a
/// trip that has it. A trip goes on along `next`.
pub struct Sweep<T> {
    pub values: Vec<T>,
    pub next: Vec<Option<usize>>,
    pub depot: Option<(T, usize)>,
}

/// How coarse the corners are: each state is rounded down to a multiple.
#[derive(Clone, Copy)]
pub struct Grain {
    pub minutes: u32,
    pub loads: u32,
}

struct Explorer<'a> {
    case: &'a Case,
    exits: &'a Exits,
    kind: Kind,
    grain: Grain,
}

impl Explorer<'_> {
    /// The state after the drive from one place to another.
    fn step(&self, (minute, load): State, from: usize, to: usize) -> Option<State> {
        let place = self.case.places[to];
        let arc = self.case.arc(from, to)?;
        let mut next = (0, 0);
        if self.kind != Kind::Load {
            next.0 = (minute + self.case.places[from].service + arc.travel).max(place.opening);
            if next.0 > place.closing {
                return None;
            }
        }
        if self.kind != Kind::Time {
            next.1 = load + place.load;
            if next.1 > self.case.capacity {
                return None;
            }
        }
        Some(next)
    }

    fn corner(&self, to: usize, (minute, load): State) -> State {
        let waited = minute.saturating_sub(self.case.places[to].opening);
        (minute - waited % self.grain.minutes, load - load % self.grain.loads)
    }

    /// The steps to customers: cost, customer, corner.
    fn steps(&self, from: usize, state: State) -> impl Iterator<Item = (u32, usize, State)> + '_ {
        ends(self.exits[from] & !1).filter_map(move |to| {
            let next = self.step(state, from, to)?;
            let cost = self.case.arc(from, to)?.cost;
            Some((cost, to, self.corner(to, next)))
        })
    }
}

impl Space {
    /// All corners that trips reach over the arcs left, if they are not more
    /// than `limit`.
    pub fn explore(case: &Case, exits: &Exits, kind: Kind, grain: Grain, limit: usize) -> Option<Space> {
        let explorer = Explorer { case, exits, kind, grain };
        let opening = if kind == Kind::Load { 0 } else { case.places[0].opening };
        let mut corners: Vec<(usize, State)> = Vec::new();
        let mut known = HashMap::new();
        let mut reach = |corners: &mut Vec<_>, from, state| {
            for (_, to, corner) in explorer.steps(from, state) {
                known.entry((to, corner)).or_insert_with(|| corners.push((to, corner)));
            }
        };
        reach(&mut corners, 0, (opening, 0));
        let mut done = 0;
        while done < corners.len() {
            let (place, state) = corners[done];
            reach(&mut corners, place, state);
            done += 1;
            if corners.len() > limit {
                return None;
            }
        }

        corners.sort_unstable_by_key(|&(place, state)| (std::cmp::Reverse(state), place));
        let index: HashMap<_, _> = corners.iter().enumerate().map(|(k, &corner)| (corner, k)).collect();
        let steps = |from, state| -> Vec<(u32, usize)> {
            explorer.steps(from, state).map(|(cost, to, corner)| (cost, index[&(to, corner)])).collect()
        };
        let nodes = corners
            .iter()
            .map(|&(place, state)| Node {
                place,
                state,
                home: ends(exits[place] & 1)
                    .find_map(|_| explorer.step(state, place, 0).and(case.arc(place, 0)))
                    .map(|arc| arc.cost),
                steps: steps(place, state),
            })
            .collect();
        let starts = steps(0, (opening, 0));
        Some(Space { nodes, starts })
    }

    /// For each node the least price of a way home, where `price` is that of
    /// an arc of a cost into a place. `dead_end` is the value of a node
    /// without a way on. There is none if prices sink along a cycle.
    pub fn sweep<T>(&self, dead_end: T, price: impl Fn(u32, usize) -> T) -> Option<Sweep<T>>
    where
        T: Copy + PartialOrd + Add<Output = T>,
    {
        const MOST_PASSES: usize = 40;
        let mut values = vec![dead_end; self.nodes.len()];
        let mut next = vec![None; self.nodes.len()];
        let mut passes = 0;
        let mut settled = false;
        while !settled {
            settled = true;
            passes += 1;
            if passes > MOST_PASSES {
                return None;
            }
            for (k, node) in self.nodes.iter().enumerate() {
                if let Some(cost) = node.home {
                    let home = price(cost, 0);
                    if home < values[k] {
                        (values[k], next[k]) = (home, None);
                        settled = false;
                    }
                }
                for &(cost, to) in &node.steps {
                    let way = price(cost, self.nodes[to].place) + values[to];
                    if way < values[k] {
                        (values[k], next[k]) = (way, Some(to));
                        settled = false;
                    }
                }
            }
        }
        let mut depot = None;
        for &(cost, to) in &self.starts {
            let way = price(cost, self.nodes[to].place) + values[to];
            if depot.is_none_or(|(least, _)| way < least) {
                depot = Some((way, to));
            }
        }
        Some(Sweep { values, next, depot })
    }
}
