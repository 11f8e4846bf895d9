//! Measures: what is counted along a route.

use crate::case::{LAST_MINUTE, MOST_LOAD};
use std::marker::PhantomData;

/// One drive along an arc.
#[derive(Clone, Copy)]
pub struct Move {
    /// Opening, closing and load of the place driven to.
    pub opening: u32,
    pub closing: u32,
    pub load: u32,
    /// The service at the place left.
    pub service: u32,
    pub travel: u32,
    pub capacity: u32,
}

pub trait Measure {
    /// How many words of eight bytes a corner takes.
    const WORDS: usize;
    type State: Copy;

    /// The state in which a trip starts.
    fn start(depot_opening: u32) -> Self::State;

    /// The state after a move, or none if the move cannot be made.
    fn step(state: Self::State, by: &Move) -> Option<Self::State>;

    fn at_most(low: Self::State, high: Self::State) -> bool;

    /// The state that the words of a corner stand for.
    fn read(corner: &[u8]) -> Option<Self::State>;
}

/// The earliest minute at which service can start.
pub struct Time;

impl Measure for Time {
    const WORDS: usize = 1;
    type State = u32;

    fn start(depot_opening: u32) -> u32 {
        depot_opening
    }

    fn step(minute: u32, by: &Move) -> Option<u32> {
        let next = (minute + by.service + by.travel).max(by.opening);
        (next <= by.closing).then_some(next)
    }

    fn at_most(low: u32, high: u32) -> bool {
        low <= high
    }

    fn read(corner: &[u8]) -> Option<u32> {
        read_word(corner, LAST_MINUTE)
    }
}

/// The load on the van.
pub struct Load;

impl Measure for Load {
    const WORDS: usize = 1;
    type State = u32;

    fn start(_: u32) -> u32 {
        0
    }

    fn step(load: u32, by: &Move) -> Option<u32> {
        let next = load + by.load;
        (next <= by.capacity).then_some(next)
    }

    fn at_most(low: u32, high: u32) -> bool {
        low <= high
    }

    fn read(corner: &[u8]) -> Option<u32> {
        read_word(corner, MOST_LOAD)
    }
}

/// Two measures together.
pub struct Pair<A, B>(PhantomData<(A, B)>);

impl<A: Measure, B: Measure> Measure for Pair<A, B> {
    const WORDS: usize = A::WORDS + B::WORDS;
    type State = (A::State, B::State);

    fn start(depot_opening: u32) -> Self::State {
        (A::start(depot_opening), B::start(depot_opening))
    }

    fn step((a, b): Self::State, by: &Move) -> Option<Self::State> {
        Some((A::step(a, by)?, B::step(b, by)?))
    }

    fn at_most(low: Self::State, high: Self::State) -> bool {
        A::at_most(low.0, high.0) && B::at_most(low.1, high.1)
    }

    fn read(corner: &[u8]) -> Option<Self::State> {
        let (a, b) = corner.split_at(8 * A::WORDS);
        Some((A::read(a)?, B::read(b)?))
    }
}

fn read_word(bytes: &[u8], most: u32) -> Option<u32> {
    let word = u64::from_le_bytes(bytes.try_into().ok()?);
    u32::try_from(word).ok().filter(|&value| value <= most)
}
