//! The inputs of the benchmark. All of them are granted, so that every entry
//! and every arc is tested, unless the name says otherwise.

use crate::case::{Arc, Case, Place};
use crate::decisions::{Decision, Side, DEEPEST};
use crate::generate::files::{case_text, entry_length, plan_text, Entry, Files, Leaf};
use crate::generate::random::Random;
use crate::generate::space::Grain;
use crate::generate::trees::{Grower, Reading, Record, Tree};
use crate::tree::Kind;
use crate::FILE_LIMIT;

pub struct Input {
    pub name: &'static str,
    pub files: Files,
}

pub fn all() -> Vec<Input> {
    use Kind::{Load, Pair, Time};
    vec![
        ladder("one leaf by time", Time, grouped),
        ladder("one leaf by load", Load, grouped),
        ladder("one leaf by pair", Pair, grouped),
        ladder("by time, places interleaved", Time, interleaved),
        ladder("by load, places interleaved", Load, interleaved),
        ladder("by pair, places interleaved", Pair, interleaved),
        ladder("by time, last entry broken", Time, last_broken),
        ladder("by load, last entry broken", Load, last_broken),
        ladder("by pair, last entry broken", Pair, last_broken),
        antichains("by pair, antichains"),
        long_look_ups("by time, long look-ups"),
        deep("64 forks, 39 customers, by time", Time, 39),
        deep("64 forks, 39 customers, by load", Load, 39),
        deep("64 forks, 29 customers, by pair", Pair, 29),
        deep_and_wide("64 forks, 60 customers, by time"),
        realistic("11 leaves, 25 customers, by time", Time, Grain { minutes: 15, loads: 1 }),
        realistic("11 leaves, 25 customers, by load", Load, Grain { minutes: 1, loads: 5 }),
        realistic("11 leaves, 25 customers, by pair", Pair, Grain { minutes: 60, loads: 14 }),
        two_stops("two stops"),
    ]
}

const SCALE: u16 = 1_000;
/// The cost of every arc home, in the cases where other arcs cost nothing.
const HOME: u32 = 100;
/// The value of a trip that has only the way home left.
const HOME_VALUE: i64 = SCALE as i64 * HOME as i64;
/// Travel of every arc in these cases.
const HOP: u32 = 10;

/// All arcs are there; only the way home costs. A trip has time and capacity
/// for that many stops.
fn plain_case(customers: usize, stops: u32, routes: u32) -> Case {
    let mut case = Case::new(customers);
    (case.capacity, case.least, case.most) = (stops, routes, routes);
    case.places[0] = Place { closing: (stops + 1) * HOP, ..Place::default() };
    for place in &mut case.places[1..] {
        *place = Place { load: 1, opening: 0, closing: stops * HOP, service: 0 };
    }
    add_all_arcs(&mut case, |_, to| Arc { cost: if to == 0 { HOME } else { 0 }, travel: HOP });
    case
}

fn add_all_arcs(case: &mut Case, arc: impl Fn(usize, usize) -> Arc) {
    for i in 0..=case.customers {
        for j in (0..=case.customers).filter(|&j| j != i) {
            case.set_arc(i, j, Some(arc(i, j)));
        }
    }
}

/// The customers in order, in that many routes of one length.
fn equal_routes(customers: usize, routes: usize) -> Vec<u8> {
    let order: Vec<u8> = (1..=customers as u8).collect();
    order.chunks(customers / routes).flat_map(|route| [route, &[0]].concat()).collect()
}

fn files(case: &Case, listing: &[u8], tree: &Tree) -> Files {
    Files { case: case_text(case), plan: plan_text(listing), tree: tree.file() }
}

/// As many entries at each of 60 places as fit: one for each number of stops
/// made. The value rises with it, by the dual for each stop that the trip has
/// lost, and every look-up from a later stop ends one further up.
fn ladder(name: &'static str, kind: Kind, arrange: fn(&mut [Entry])) -> Input {
    let customers = 60;
    let stops = ((FILE_LIMIT - 29 - 8 * customers) / entry_length(kind) / customers) as u32;
    // By pair there is no room for a trip to all customers.
    let routes = (customers as u32).div_ceil(stops);
    let case = plain_case(customers, stops, routes);
    // The trips together could make a few more stops than there are
    // customers. Each lowers the bound by a dual, and the scale is the room.
    let spare = i64::from(stops * routes) - customers as i64;
    let dual = (i64::from(SCALE) - 1) / spare.max(1);

    let mut entries = Vec::new();
    for place in 1..=customers as u8 {
        for made in 1..=stops {
            let value = HOME_VALUE - dual * i64::from(stops - made);
            entries.push(Entry { place, value, corner: [u64::from(made * HOP), u64::from(made)] });
        }
    }
    arrange(&mut entries);
    let van_price = HOME_VALUE - dual * i64::from(stops);
    let leaf = Leaf { scale: SCALE, van_price, duals: vec![dual; customers], entries };
    let tree = Tree { kind, customers, records: vec![Record::Leaf(leaf)] };
    Input { name, files: files(&case, &equal_routes(customers, routes as usize), &tree) }
}

fn grouped(_: &mut [Entry]) {}

fn interleaved(entries: &mut [Entry]) {
    entries.sort_by_key(|entry| entry.corner);
}

fn last_broken(entries: &mut [Entry]) {
    if let Some(last) = entries.last_mut() {
        last.value += 1;
    }
}

/// At each place no corner is at most another. A step sees only the corner
/// that it comes from, so a look-up in falling value runs through half of the
/// list on average.
fn antichains(name: &'static str) -> Input {
    let (kind, customers) = (Kind::Pair, 60);
    let each = (FILE_LIMIT - 29 - 8 * customers) / entry_length(kind) / customers;
    let mut case = plain_case(customers, 1, customers as u32);
    case.capacity = 10_000;
    case.places[0].opening = 5_000;
    for place in &mut case.places {
        place.closing = 60_000;
    }
    // The duals are so low that only the look-ups matter.
    let dual = -1_000_000;
    let mut entries = Vec::new();
    for place in 1..=customers as u8 {
        for k in 0..each as u64 {
            let corner = [5_000 + u64::from(HOP) - 100 * k, 1 + 200 * k];
            entries.push(Entry { place, value: HOME_VALUE - k as i64, corner });
        }
    }
    let leaf = Leaf { scale: SCALE, van_price: HOME_VALUE - dual, duals: vec![dual; customers], entries };
    let tree = Tree { kind, customers, records: vec![Record::Leaf(leaf)] };
    Input { name, files: files(&case, &equal_routes(customers, customers), &tree) }
}

/// Few places with many entries each, whose values rise with the corner. A
/// step is shorter than the way to the next corner, so a look-up in falling
/// value passes every corner above the one that it comes from. Only the first
/// corner has a step home, since the depot closes early.
fn long_look_ups(name: &'static str) -> Input {
    let (kind, customers) = (Kind::Time, 10);
    let each = (FILE_LIMIT - 29 - 8 * customers) / entry_length(kind) / customers;
    let mut case = plain_case(customers, 1, customers as u32);
    case.capacity = 10_000;
    for place in &mut case.places[1..] {
        place.closing = 60_000;
    }
    // The duals are so low that only the look-ups matter.
    let dual = -1_000_000;
    let mut entries = Vec::new();
    for place in 1..=customers as u8 {
        for k in 0..each as u64 {
            let corner = [u64::from(HOP) * (1 + 10 * k), 0];
            entries.push(Entry { place, value: HOME_VALUE + k as i64, corner });
        }
    }
    let leaf = Leaf { scale: SCALE, van_price: HOME_VALUE - dual, duals: vec![dual; customers], entries };
    let tree = Tree { kind, customers, records: vec![Record::Leaf(leaf)] };
    Input { name, files: files(&case, &equal_routes(customers, customers), &tree) }
}

/// A leaf with one entry at each place, under 64 useless forks.
fn deep(name: &'static str, kind: Kind, customers: usize) -> Input {
    let case = plain_case(customers, customers as u32, customers as u32);
    let entries =
        (1..=customers as u8).map(|place| Entry { place, value: HOME_VALUE, corner: [u64::from(HOP), 1] }).collect();
    let leaf = Leaf { scale: SCALE, van_price: HOME_VALUE, duals: vec![0; customers], entries };
    let mut tree = Tree { kind, customers, records: vec![Record::Leaf(leaf)] };
    tree.deepen(&mut Random::new(1), 0, DEEPEST);
    Input { name, files: files(&case, &equal_routes(customers, customers), &tree) }
}

/// One arc leaves the depot, and 64 forks are on it. On the sides without it
/// no trip starts, and the entries there have no step left but the way home.
fn deep_and_wide(name: &'static str) -> Input {
    let (kind, customers) = (Kind::Time, 60);
    let stops = customers as u32;
    let mut case = plain_case(customers, stops, 1);
    for to in 2..=customers {
        case.set_arc(0, to, None);
    }
    let leaf = |entries| Leaf { scale: SCALE, van_price: HOME_VALUE, duals: vec![0; customers], entries };
    let entry = |place, minute| Entry { place, value: HOME_VALUE, corner: [u64::from(minute), 0] };
    let small = leaf((1..=29).map(|place| entry(place, stops * HOP)).collect());
    let whole = leaf((1..=customers as u8).map(|place| entry(place, HOP)).collect());
    let mut records = Vec::new();
    for _ in 0..DEEPEST {
        records.extend([Record::Fork(0, 1), Record::Leaf(small.clone())]);
    }
    records.push(Record::Leaf(whole));
    let mut tree = Tree { kind, customers, records };
    // The last leaf is larger than the others by what they must leave.
    while tree.length() > FILE_LIMIT {
        for record in &mut tree.records {
            match record {
                Record::Leaf(leaf) if leaf.entries.len() < customers => drop(leaf.entries.pop()),
                _ => (),
            }
        }
    }
    Input { name, files: files(&case, &equal_routes(customers, 1), &tree) }
}

/// Five routes of five customers are planted: their arcs cost what their ends
/// ask, all others more. Ten forks on planted arcs, each leaf with potentials
/// of its own.
fn realistic(name: &'static str, kind: Kind, grain: Grain) -> Input {
    let (customers, routes) = (25, 5);
    let mut random = Random::new(25);
    let mut case = Case::new(customers);
    (case.capacity, case.least, case.most) = (70, 0, 8);
    case.places[0] = Place { opening: 60, closing: 660, ..Place::default() };
    for (k, place) in case.places[1..].iter_mut().enumerate() {
        // The planted routes serve their k-th customer around this minute.
        let due = 60 + 100 * (k as u32 % 5 + 1);
        let (before, after) = (random.within(10..=200), random.within(10..=150));
        let opening = due.saturating_sub(before);
        *place = Place { load: random.within(6..=14), opening, closing: due + after, service: 10 };
    }
    let listing = equal_routes(customers, routes);
    let tolls: Vec<u32> = (0..=customers).map(|to| if to == 0 { 0 } else { random.within(5..=60) }).collect();
    let spots: Vec<(u32, u32)> = tolls.iter().map(|_| (random.within(0..=35), random.within(0..=35))).collect();
    let planted = |from: usize, to: usize| {
        let first = to != 0 && to % 5 == 1;
        let last = from != 0 && from.is_multiple_of(5);
        from == 0 && first || last && to == 0 || !last && !first && to == from + 1
    };
    add_all_arcs(&mut case, |from, to| {
        let distance = spots[from].0.abs_diff(spots[to].0) + spots[from].1.abs_diff(spots[to].1);
        let detour = if planted(from, to) { 0 } else { 1 + distance / 2 };
        Arc { cost: tolls[to] + detour, travel: 15 + distance }
    });

    let grower = Grower {
        case: &case,
        kind,
        cost: tolls.iter().map(|&toll| i64::from(toll)).sum(),
        scale: SCALE,
        grain,
        reading: Reading::Right,
        corner_limit: 100_000,
        record_limit: 1,
        keep_hidden: true,
        pivots: 0,
    };
    let mut tree = Tree { kind, customers, records: Vec::new() };
    let mut decisions = Vec::new();
    let leaf = |decisions: &[Decision]| Record::Leaf(grower.plain_leaf(decisions).expect("no price is below 0"));
    for from in (1..customers).filter(|from| from % 5 != 0).take(10) {
        let to = from + 1;
        tree.records.push(Record::Fork(from as u8, to as u8));
        decisions.push(Decision { from, to, side: Side::Forbid });
        tree.records.push(leaf(&decisions));
        decisions.pop();
        decisions.push(Decision { from, to, side: Side::Force });
    }
    tree.records.push(leaf(&decisions));
    Input { name, files: files(&case, &listing, &tree) }
}

/// The worked example of the pages.
fn two_stops(name: &'static str) -> Input {
    let mut case = Case::new(2);
    (case.capacity, case.least, case.most) = (10, 0, 2);
    case.places =
        [(0, 100), (4, 50), (5, 50)].map(|(load, closing)| Place { load, opening: 0, closing, service: 0 }).to_vec();
    for (i, j, cost) in [(0, 1, 4), (0, 2, 5), (1, 2, 3)] {
        case.set_arc(i, j, Some(Arc { cost, travel: cost }));
        case.set_arc(j, i, Some(Arc { cost, travel: cost }));
    }
    let entry = |place, value, load| Entry { place, value, corner: [0, load] };
    let entries = vec![entry(1, 1, 4), entry(1, 4, 9), entry(2, 2, 5), entry(2, 5, 9)];
    let leaf = Leaf { scale: 1, van_price: 0, duals: vec![5, 7], entries };
    let tree = Tree { kind: Kind::Load, customers: 2, records: vec![Record::Leaf(leaf)] };
    Input { name, files: files(&case, &[1, 2, 0], &tree) }
}
