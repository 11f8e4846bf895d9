//! Plans of a case: the cheapest one where the case is small, else some one.

use super::random::Random;
use crate::case::Case;

/// Up to this many customers the cheapest plan is searched for.
pub const EXACT_LIMIT: usize = 8;

/// A listing with its cost.
#[derive(Clone, Debug)]
pub struct Plan {
    pub cost: i64,
    pub listing: Vec<u8>,
}

impl Plan {
    pub fn routes(&self) -> u32 {
        self.listing.iter().filter(|&&stop| stop == 0).count() as u32
    }
}

/// The cheapest route for each set of customers that some route serves.
struct Routes<'a> {
    case: &'a Case,
    best: Vec<Option<(i64, Vec<u8>)>>,
}

impl Routes<'_> {
    /// Extends a route in every way that can be driven.
    fn extend(&mut self, order: &mut Vec<u8>, set: usize, minute: u32, load: u32, cost: i64) {
        let from = order.last().map_or(0, |&last| usize::from(last));
        let service = self.case.places[from].service;
        for to in 0..=self.case.customers {
            let customer_bit = 1 << to >> 1;
            if set & customer_bit != 0 {
                continue;
            }
            let Some(arc) = self.case.arc(from, to) else { continue };
            let place = self.case.places[to];
            let start = (minute + service + arc.travel).max(place.opening);
            if start > place.closing || load + place.load > self.case.capacity {
                continue;
            }
            let cost = cost + i64::from(arc.cost);
            if to == 0 {
                let best = &mut self.best[set];
                if best.as_ref().is_none_or(|(known, _)| cost < *known) {
                    *best = Some((cost, order.clone()));
                }
            } else {
                order.push(to as u8);
                self.extend(order, set | customer_bit, start, load + place.load, cost);
                order.pop();
            }
        }
    }
}

/// The cheapest plan of a small case, if it has a plan.
pub fn cheapest(case: &Case) -> Option<Plan> {
    let sets = 1usize << case.customers;
    let mut routes = Routes { case, best: vec![None; sets] };
    routes.extend(&mut Vec::new(), 0, case.places[0].opening, 0, 0);

    // For each number of routes and each set the cheapest way to serve it,
    // with the set that its last route serves.
    let most = (case.most as usize).min(case.customers);
    let mut plans: Vec<Vec<Option<(i64, usize)>>> = vec![vec![None; sets]; most + 1];
    plans[0][0] = Some((0, 0));
    for count in 1..=most {
        for set in 1..sets {
            let first = set & set.wrapping_neg();
            let mut part = set;
            while part != 0 {
                if part & first != 0 {
                    let rest = plans[count - 1][set & !part];
                    if let (Some((rest, _)), Some((route, _))) = (rest, &routes.best[part]) {
                        let cost = rest + route;
                        if plans[count][set].is_none_or(|(known, _)| cost < known) {
                            plans[count][set] = Some((cost, part));
                        }
                    }
                }
                part = (part - 1) & set;
            }
        }
    }

    let all = sets - 1;
    let (cost, count) = (case.least as usize..=most).filter_map(|count| Some((plans[count][all]?.0, count))).min()?;
    let mut listing = Vec::new();
    let mut set = all;
    for count in (1..=count).rev() {
        let (_, part) = plans[count][set]?;
        listing.extend(&routes.best[part].as_ref()?.1);
        listing.push(0);
        set &= !part;
    }
    Some(Plan { cost, listing })
}

/// Some plan, whatever the fleet: each next customer is the nearest that can
/// still be served, or at times any such.
pub fn some_plan(random: &mut Random, case: &Case, at_random: usize) -> Option<Plan> {
    let mut plan = Plan { cost: 0, listing: Vec::new() };
    let mut waiting: Vec<usize> = (1..=case.customers).collect();
    let (mut from, mut minute, mut load) = (0, case.places[0].opening, 0);
    while !waiting.is_empty() || from != 0 {
        let step = |minute: u32, from: usize, to: usize| {
            let arc = case.arc(from, to)?;
            let start = (minute + case.places[from].service + arc.travel).max(case.places[to].opening);
            (start <= case.places[to].closing).then_some((start, arc.cost))
        };
        let next: Vec<(u32, usize, u32)> = waiting
            .iter()
            .filter(|&&to| load + case.places[to].load <= case.capacity)
            .filter_map(|&to| {
                let (start, cost) = step(minute, from, to)?;
                step(start, to, 0)?;
                Some((cost, to, start))
            })
            .collect();
        let home = next.is_empty() || from != 0 && random.percent(at_random / 3);
        if home {
            // No customer is left that a route of its own could serve.
            if from == 0 {
                return None;
            }
            plan.cost += i64::from(step(minute, from, 0)?.1);
            plan.listing.push(0);
            (from, minute, load) = (0, case.places[0].opening, 0);
        } else {
            let nearest = next.iter().min().copied()?;
            let (cost, to, start) = if random.percent(at_random) { random.pick(&next) } else { nearest };
            plan.cost += i64::from(cost);
            plan.listing.push(to as u8);
            load += case.places[to].load;
            (from, minute) = (to, start);
            waiting.retain(|&customer| customer != to);
        }
    }
    Some(plan)
}
