//! Decisions of the branching, and the arcs that they leave.

use crate::case::{Case, MOST_CUSTOMERS};

/// The most decisions that are held at once.
pub const DEEPEST: usize = 64;

#[derive(Clone, Copy, Debug, PartialEq, Eq)]
pub enum Side {
    /// The arc is removed.
    Forbid,
    /// Every other arc out of its start and into its end is removed, except
    /// at the depot.
    Force,
}

#[derive(Clone, Copy, Debug, PartialEq, Eq)]
pub struct Decision {
    pub from: usize,
    pub to: usize,
    pub side: Side,
}

/// For each place the ends of the arcs left out of it, as bits.
pub type Exits = [u64; MOST_CUSTOMERS as usize + 1];

/// The arcs of the case that no decision removes.
pub fn exits_left(case: &Case, decisions: &[Decision]) -> Exits {
    let mut exits = [0; MOST_CUSTOMERS as usize + 1];
    let rows = &mut exits[..=case.customers];
    rows.copy_from_slice(case.exits());
    for &Decision { from, to, side } in decisions {
        let end = 1 << to;
        match side {
            Side::Forbid => rows[from] &= !end,
            Side::Force => {
                let forced = rows[from] & end;
                if from != 0 {
                    rows[from] = forced;
                }
                if to != 0 {
                    rows.iter_mut().for_each(|row| *row &= !end);
                    rows[from] |= forced;
                }
            }
        }
    }
    exits
}

/// The ends in a row of arcs, rising.
pub fn ends(mut row: u64) -> impl Iterator<Item = usize> {
    std::iter::from_fn(move || {
        let end = (row != 0).then(|| row.trailing_zeros() as usize);
        row &= row.wrapping_sub(1);
        end
    })
}
