//! Random cases.

use super::random::Random;
use crate::case::{Arc, Case, Place, LAST_MINUTE, MOST_COST, MOST_LOAD};

/// A case of that many customers. Its fleet allows every number of routes.
pub fn random_case(random: &mut Random, customers: usize) -> Case {
    let mut case = Case::new(customers);
    let horizon = random.pick(&[12, 20, 30, 40, 60, 100]);
    let opening = if random.percent(50) { 0 } else { random.within(1..=horizon / 4) };
    case.places[0] = Place { opening, closing: opening + horizon, ..Place::default() };

    let loads = random.pick(&[1, 3, 5, 8]);
    case.capacity = loads * random.within(2..=4) + random.within(0..=2);
    let narrow = random.pick(&[0, 0, 30, 70, 100]);
    let longest_service = random.pick(&[0, 0, 1, 3, 6]);
    for place in &mut case.places[1..] {
        let lightest = u32::from(!random.percent(10));
        place.load = random.within(lightest..=loads);
        place.service = random.within(0..=longest_service);
        (place.opening, place.closing) = if random.percent(narrow) {
            let start = opening + random.within(0..=horizon * 2 / 3);
            (start, start + random.within(0..=horizon / 3))
        } else {
            (random.within(0..=opening), opening + horizon)
        };
    }
    (case.least, case.most) = (0, customers as u32);

    draw_arcs(random, &mut case, horizon);
    if random.percent(if customers > 15 { 60 } else { 8 }) {
        charge_tolls(random, &mut case);
    }
    if random.percent(8) {
        stretch(random, &mut case);
    }
    case
}

fn draw_arcs(random: &mut Random, case: &mut Case, horizon: u32) {
    let side = random.pick(&[3, 6, 10, horizon / 4 + 1]);
    let spots: Vec<(u32, u32)> =
        case.places.iter().map(|_| (random.within(0..=side), random.within(0..=side))).collect();
    let on_map = random.percent(60);
    let free = random.pick(&[0, 0, 0, 20, 100]);
    let instant = random.pick(&[0, 0, 0, 0, 20, 100]);
    let missing = random.pick(&[0, 0, 0, 10, 25]);
    for i in 0..=case.customers {
        for j in (0..=case.customers).filter(|&j| j != i) {
            let distance = spots[i].0.abs_diff(spots[j].0) + spots[i].1.abs_diff(spots[j].1);
            let mut arc = if on_map {
                Arc { cost: distance + 1, travel: distance / 2 + 1 }
            } else {
                Arc { cost: random.within(0..=side * 2), travel: random.within(1..=side / 2 + 1) }
            };
            if random.percent(free) {
                arc.cost = 0;
            }
            if random.percent(instant) {
                arc.travel = 0;
            }
            if !random.percent(missing) {
                case.set_arc(i, j, Some(arc));
            }
        }
    }
}

/// Makes each arc cost what its end asks, so that all plans cost the same and
/// even a large case has a tree that holds.
fn charge_tolls(random: &mut Random, case: &mut Case) {
    for to in 0..=case.customers {
        let toll = if to == 0 { 0 } else { random.within(0..=20) };
        for from in 0..=case.customers {
            if let Some(arc) = case.arc(from, to) {
                case.set_arc(from, to, Some(Arc { cost: toll, ..arc }));
            }
        }
    }
}

/// Stretches times, loads or costs as far as their ranges allow.
fn stretch(random: &mut Random, case: &mut Case) {
    let latest = case.places.iter().map(|place| place.closing.max(place.service)).max().unwrap_or(1);
    let heaviest = case.places.iter().map(|place| place.load).max().unwrap_or(1).max(case.capacity);
    let arcs = |case: &Case| -> Vec<(usize, usize, Arc)> {
        let places = 0..=case.customers;
        places
            .clone()
            .flat_map(|i| places.clone().map(move |j| (i, j)))
            .filter_map(|(i, j)| Some((i, j, case.arc(i, j)?)))
            .collect()
    };
    let longest = arcs(case).iter().map(|(.., arc)| arc.travel).max().unwrap_or(1);
    let dearest = arcs(case).iter().map(|(.., arc)| arc.cost).max().unwrap_or(1);

    let times = if random.percent(60) { LAST_MINUTE / latest.max(longest).max(1) } else { 1 };
    let weights = if random.percent(60) { MOST_LOAD / heaviest.max(1) } else { 1 };
    let costs = if random.percent(60) { MOST_COST / dearest.max(1) } else { 1 };
    for place in &mut case.places {
        place.opening *= times;
        place.closing *= times;
        place.service *= times;
        place.load *= weights;
    }
    case.capacity *= weights;
    for (i, j, arc) in arcs(case) {
        case.set_arc(i, j, Some(Arc { cost: arc.cost * costs, travel: arc.travel * times }));
    }
}

/// The same case with a later opening of the depot.
pub fn late_twin(random: &mut Random, case: &Case) -> Case {
    let mut late = case.clone();
    let depot = &mut late.places[0];
    let room = depot.closing - depot.opening;
    let longest = room / random.pick(&[2, 4, 10]);
    let delay = random.within(1..=longest.max(1));
    depot.opening = (depot.opening + delay).min(LAST_MINUTE);
    depot.closing = depot.closing.max(depot.opening);
    late
}

/// The same case with one value moved a little.
pub fn moved(random: &mut Random, case: &Case) -> Case {
    let mut case = case.clone();
    let place = random.below(case.customers + 1);
    let customer = 1 + random.below(case.customers);
    let up = random.percent(50);
    let shift = |value: u32, low: u32, high: u32| {
        let moved = if up { value + 1 } else { value.saturating_sub(1) };
        moved.clamp(low, high)
    };
    match random.below(9) {
        0 => case.capacity = shift(case.capacity, 0, MOST_LOAD),
        1 => case.least = shift(case.least, 0, case.most),
        2 => case.most = shift(case.most, case.least, 60),
        3 => case.places[customer].load = shift(case.places[customer].load, 0, MOST_LOAD),
        4 => case.places[place].opening = shift(case.places[place].opening, 0, case.places[place].closing),
        5 => case.places[place].closing = shift(case.places[place].closing, case.places[place].opening, LAST_MINUTE),
        6 => case.places[customer].service = shift(case.places[customer].service, 0, LAST_MINUTE),
        _ => {
            let to = random.below(case.customers + 1);
            let (i, j) = if to == customer { (customer, 0) } else { (customer, to) };
            let (i, j) = if up { (i, j) } else { (j, i) };
            let arc = match case.arc(i, j) {
                Some(_) if random.percent(25) => None,
                Some(arc) if random.percent(50) => Some(Arc { cost: shift(arc.cost, 0, MOST_COST), ..arc }),
                Some(arc) => Some(Arc { travel: shift(arc.travel, 0, LAST_MINUTE), ..arc }),
                None => Some(Arc { cost: random.within(0..=9), travel: random.within(0..=9) }),
            };
            case.set_arc(i, j, arc);
        }
    }
    case
}
