//! The plan text, and the price of its listing on a case.

use crate::case::Case;
use crate::fault::Denial;
use crate::words::{number, word_at, LINE_FEED, SPACE};

/// The longest listing: 60 routes of one customer each.
pub const LISTING_LIMIT: usize = 120;

/// Reads a plan text: the listing, in which a 0 ends each route.
pub fn read(text: &[u8]) -> Result<Vec<u8>, Denial> {
    let mut listing = Vec::with_capacity(LISTING_LIMIT);
    let mut at = 0;
    while at < text.len() {
        if text[at] == SPACE || text[at] == LINE_FEED {
            at += 1;
            continue;
        }
        if listing.len() == LISTING_LIMIT {
            return Err(Denial::at(2, at));
        }
        let word = word_at(text, at);
        let value = number(word.bytes).ok_or(Denial::at(1, at))?;
        listing.push(u8::try_from(value).map_err(|_| Denial::at(3, at))?);
        at += word.bytes.len();
    }
    Ok(listing)
}

#[derive(Clone, Copy, Debug, PartialEq, Eq)]
pub struct Price {
    pub cost: i64,
    pub routes: usize,
}

/// Prices a listing on a case.
pub fn price(case: &Case, listing: &[u8]) -> Result<Price, Denial> {
    judge_form(case, listing)?;
    judge_visits(case, listing)?;
    let cost = drive(case, listing)?;
    let routes = listing.iter().filter(|&&stop| stop == 0).count();
    if routes < case.least as usize || routes > case.most as usize {
        return Err(Denial::at(16, routes));
    }
    Ok(Price { cost, routes })
}

/// The listing consists of routes of one or more places of the case.
fn judge_form(case: &Case, listing: &[u8]) -> Result<(), Denial> {
    let mut before = 0;
    for (index, &stop) in listing.iter().enumerate() {
        let empty_route = stop == 0 && before == 0;
        let cut_short = stop != 0 && index + 1 == listing.len();
        if usize::from(stop) > case.customers || empty_route || cut_short {
            return Err(Denial::at(10, index));
        }
        before = stop;
    }
    if listing.is_empty() {
        return Err(Denial::at(10, 0));
    }
    Ok(())
}

/// Every customer is visited exactly once.
fn judge_visits(case: &Case, listing: &[u8]) -> Result<(), Denial> {
    let mut visited = 0u64;
    for (index, &stop) in listing.iter().enumerate().filter(|(_, &stop)| stop != 0) {
        if visited >> stop & 1 == 1 {
            return Err(Denial::at(11, index));
        }
        visited |= 1 << stop;
    }
    match (1..=case.customers).find(|customer| visited >> customer & 1 == 0) {
        Some(missing) => Err(Denial::at(12, missing)),
        None => Ok(()),
    }
}

/// Drives the routes on their earliest schedules and sums up the costs.
fn drive(case: &Case, listing: &[u8]) -> Result<i64, Denial> {
    let depot = case.places[0];
    let mut cost = 0;
    let (mut from, mut minute, mut load) = (0, depot.opening, 0);
    for (index, &stop) in listing.iter().enumerate() {
        let to = usize::from(stop);
        let denied = |number| Denial::on_arc(number, (from, to), index);
        let place = case.places[to];

        let arc = case.arc(from, to).ok_or(denied(13))?;
        let arrival = minute + case.places[from].service + arc.travel;
        minute = arrival.max(place.opening);
        if minute > place.closing {
            return Err(denied(14));
        }
        load += place.load;
        if load > case.capacity {
            return Err(denied(15));
        }
        cost += i64::from(arc.cost);

        from = to;
        if to == 0 {
            (minute, load) = (depot.opening, 0);
        }
    }
    Ok(cost)
}
