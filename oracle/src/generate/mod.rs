//! A seeded generator of inputs for `judge`.
//!
//! [`family`] draws a case, finds a plan and grows a tree that proves it
//! cheapest, then changes all three in many ways. Each input has a twin whose
//! depot opens later, so that a trip that starts at minute 0 shows.

pub mod cases;
pub mod damage;
pub mod duals;
pub mod files;
pub mod plans;
pub mod random;
pub mod space;
pub mod trees;

use crate::case::Case;
use crate::decisions::DEEPEST;
use crate::tree::Kind;
use crate::FILE_LIMIT;
use files::{case_text, plan_text, Files};
use plans::{Plan, EXACT_LIMIT};
use random::Random;
use space::Grain;
use trees::{Grower, Reading, Record, Tree};

/// An input with the name of the way in which it was made.
pub struct Sample {
    pub made: &'static str,
    pub files: Files,
}

/// A case with a plan of it and a tree for the plan.
struct Claim {
    case: Case,
    plan: Plan,
    tree: Tree,
}

/// The inputs made from one seed.
pub fn family(seed: u64) -> Vec<Sample> {
    let mut random = Random::new(seed);
    let large = random.percent(2);
    loop {
        let kind = random.pick(&[Kind::Time, Kind::Load, Kind::Pair]);
        let customers = if large { large_size(&mut random, kind) } else { small_size(&mut random) };
        let mut case = cases::random_case(&mut random, customers);
        let Some(plan) = plan_and_fleet(&mut random, &mut case) else { continue };
        let late = cases::late_twin(&mut random, &case);
        let Some(tree) = grow(&mut random, &case, kind, plan.cost, Reading::Right) else { continue };
        let mut family = Family { random, late, claim: Claim { case, plan, tree }, samples: Vec::new() };
        if large {
            family.add_large();
        } else {
            family.add_true();
            family.add_changed();
            family.add_damaged();
        }
        return family.samples;
    }
}

fn small_size(random: &mut Random) -> usize {
    match random.below(100) {
        0..=74 => 1 + random.below(6),
        75..=87 => 7 + random.below(2),
        88..=97 => 9 + random.below(7),
        _ => 16 + random.below(10),
    }
}

/// A number of customers for which some leaf fills the largest file exactly,
/// or the largest number.
fn large_size(random: &mut Random, kind: Kind) -> usize {
    match kind {
        _ if random.percent(40) => 60,
        Kind::Pair => random.pick(&[4, 29, 54]),
        _ => random.pick(&[5, 22, 39, 56]),
    }
}

fn find_plan(random: &mut Random, case: &Case) -> Option<Plan> {
    if case.customers <= EXACT_LIMIT {
        plans::cheapest(case)
    } else {
        plans::some_plan(random, case, 0)
    }
}

/// A plan of the case, whose fleet is drawn around it.
fn plan_and_fleet(random: &mut Random, case: &mut Case) -> Option<Plan> {
    let free = find_plan(random, case)?;
    let routes = free.routes();
    let any = (0, case.customers as u32);
    let fleet = match random.below(8) {
        0 | 1 => any,
        2 => (routes, routes),
        3 => (routes, 60),
        4 => (0, routes),
        5 => (routes.saturating_sub(1), routes + random.within(0..=1)),
        6 => (routes + 1, any.1.max(routes + 1)),
        _ => (0, (routes - 1).max(1)),
    };
    (case.least, case.most) = (fleet.0.min(60), fleet.1.min(60));
    if (case.least..=case.most).contains(&routes) {
        return Some(free);
    }
    // The number of routes differs from that of the cheapest plan of all.
    if case.customers <= EXACT_LIMIT {
        if let Some(plan) = plans::cheapest(case) {
            return Some(plan);
        }
    }
    (case.least, case.most) = any;
    Some(free)
}

fn grow(random: &mut Random, case: &Case, kind: Kind, cost: i64, reading: Reading) -> Option<Tree> {
    let customers = case.customers;
    let scale = random.pick(&[1, 1, 2, 3, 10, 12, 60, 100, 360, 997, 1_000, 1_000]);
    let longest = case.places[0].closing - case.places[0].opening;
    // About this many different times and loads at each place.
    let steps = match (customers, kind) {
        (0..=8, Kind::Pair) => 40,
        (0..=8, _) => 200,
        (9..=25, Kind::Pair) => 5,
        (9..=25, _) => 24,
        (_, Kind::Pair) => 3,
        _ => 8,
    };
    let grain = Grain { minutes: longest / steps + 1, loads: case.capacity / steps + 1 };
    let grower = Grower {
        case,
        kind,
        cost,
        scale,
        grain,
        reading,
        corner_limit: 2_500,
        record_limit: if customers <= 8 { random.pick(&[1, 9, 40]) } else { random.pick(&[1, 1, 9]) },
        keep_hidden: random.percent(10),
        pivots: if customers <= 8 { 30 + 8 * customers } else { 400 / customers },
    };
    grower.grow().filter(|tree| tree.length() <= FILE_LIMIT)
}

struct Family {
    random: Random,
    claim: Claim,
    /// The case with a later opening of the depot.
    late: Case,
    samples: Vec<Sample>,
}

impl Family {
    /// Adds an input and its twin.
    fn add(&mut self, made: &'static str, plan: Vec<u8>, tree: Vec<u8>) {
        let twins = [case_text(&self.claim.case), case_text(&self.late)];
        self.add_texts(made, twins, plan, tree);
    }

    fn add_texts(&mut self, made: &'static str, twins: [Vec<u8>; 2], plan: Vec<u8>, tree: Vec<u8>) {
        for case in twins {
            let files = Files { case, plan: plan.clone(), tree: tree.clone() };
            self.samples.push(Sample { made, files });
        }
    }

    fn plan_text(&self) -> Vec<u8> {
        plan_text(&self.claim.plan.listing)
    }

    /// The claim itself, and the same remade for the late twin.
    fn add_true(&mut self) {
        self.add("true", self.plan_text(), self.claim.tree.file());
        let kind = self.claim.tree.kind;
        let Some(plan) = find_plan(&mut self.random, &self.late) else { return };
        let Some(tree) = grow(&mut self.random, &self.late, kind, plan.cost, Reading::Right) else { return };
        self.add("true for the twin", plan_text(&plan.listing), tree.file());
    }

    /// Other plans, trees and cases, all well formed.
    fn add_changed(&mut self) {
        let random = &mut self.random;
        let Claim { case, plan, tree } = &self.claim;
        match random.below(6) {
            0 => {
                if let Some(other) = plans::some_plan(random, case, 50) {
                    self.add("dearer plan", plan_text(&other.listing), self.claim.tree.file());
                }
            }
            1 | 2 => {
                let mut deep = tree.clone();
                let leaves = deep.leaves();
                let at = random.pick(&leaves);
                let leaf_length = deep.length() / deep.records.len() + 1;
                let room = (FILE_LIMIT - deep.length()) / (leaf_length + 20);
                let forks = random.pick(&[1, 2, 3, 5, DEEPEST - 1, DEEPEST, DEEPEST, DEEPEST + 1]);
                deep.deepen(random, at, forks.min(room).max(1));
                self.add("deepened", self.plan_text(), deep.file());
            }
            3 => {
                let mut cut = tree.clone();
                let length = 1 + random.below(cut.records.len());
                cut.records.truncate(length);
                if random.percent(50) {
                    cut.records.insert(0, Record::Fork(1, 0));
                }
                self.add("unfinished", self.plan_text(), cut.file());
            }
            4 => {
                let reading = random.pick(&[Reading::DepotForced, Reading::Swapped]);
                let cost = plan.cost;
                let kind = tree.kind;
                if let Some(wrong) = grow(random, case, kind, cost, reading) {
                    self.add("wrong reading", self.plan_text(), wrong.file());
                }
            }
            _ => {
                let kind = random.pick(&[Kind::Time, Kind::Load, Kind::Pair]);
                let cost = plan.cost;
                if let Some(other) = grow(random, case, kind, cost, Reading::Right) {
                    self.add("other measure", self.plan_text(), other.file());
                }
            }
        }
        let moved = cases::moved(&mut self.random, &self.claim.case);
        let late = cases::late_twin(&mut self.random, &moved);
        let twins = [case_text(&moved), case_text(&late)];
        self.add_texts("moved case", twins, self.plan_text(), self.claim.tree.file());
    }

    fn add_damaged(&mut self) {
        let tree = self.claim.tree.file();
        let plan = self.plan_text();
        for _ in 0..3 {
            let changed = damage::tree(&mut self.random, &self.claim.tree);
            self.add("changed tree", plan.clone(), changed.file());
        }
        let changed = damage::tree_bytes(&mut self.random, &tree);
        self.add("tree bytes", plan.clone(), changed);

        let customers = self.claim.case.customers;
        let changed = damage::listing(&mut self.random, &self.claim.plan.listing, customers);
        self.add("changed listing", plan_text(&changed), tree.clone());
        match self.random.below(3) {
            0 => {
                let changed = damage::text(&mut self.random, &plan);
                self.add("plan text", changed, tree.clone());
            }
            1 => {
                // Up to the longest listing and beyond.
                let mut long = self.claim.plan.listing.clone();
                let length = self.random.pick(&[118, 119, 120, 121, 122]);
                while long.len() < length {
                    long.push(self.random.pick(&[0, 1, 1 + (customers > 1) as u8]));
                }
                self.add("long listing", plan_text(&long), tree.clone());
            }
            _ => {
                let spaced = damage::spaced(&mut self.random, &plan);
                self.add("spaced plan", spaced, tree.clone());
            }
        }

        // The same damage for both twins.
        let texts = [case_text(&self.claim.case), case_text(&self.late)];
        let state = self.random.clone();
        let twins = texts.clone().map(|text| damage::text(&mut state.clone(), &text));
        self.random.bits();
        self.add_texts("case text", twins, plan.clone(), tree.clone());
        if self.random.percent(20) {
            let twins = texts.map(|text| damage::spaced(&mut self.random, &text));
            self.add_texts("spaced case", twins, plan, tree);
        }
    }

    /// Files as large as may be, and larger.
    fn add_large(&mut self) {
        let plan = self.plan_text();
        let mut full = self.claim.tree.clone();
        let at = self.random.pick(&full.leaves());
        full.fill_up(&mut self.random, at, FILE_LIMIT);
        self.add("full tree", plan.clone(), full.file());

        let changed = damage::tree(&mut self.random, &full);
        self.add("full tree changed", plan.clone(), changed.file());

        let mut beyond = full.file();
        beyond.resize(FILE_LIMIT + 1, 0);
        self.add("tree beyond the limit", plan.clone(), beyond);

        let tree = self.claim.tree.file();
        for (made, length) in [("full plan", FILE_LIMIT), ("plan beyond the limit", FILE_LIMIT + 1)] {
            let mut padded = plan.clone();
            padded.resize(length, b' ');
            self.add(made, padded, tree.clone());
        }
        let texts = [case_text(&self.claim.case), case_text(&self.late)];
        for (made, length) in [("full case", FILE_LIMIT), ("case beyond the limit", FILE_LIMIT + 1)] {
            let twins = texts.clone().map(|mut text| {
                // Spaces before the line feed of the first line.
                let at = text.iter().position(|&byte| byte == b'\n').unwrap_or(0);
                let spaces = length.saturating_sub(text.len());
                text.splice(at..at, std::iter::repeat_n(b' ', spaces));
                text
            });
            self.add_texts(made, twins, plan.clone(), tree.clone());
        }
    }
}
