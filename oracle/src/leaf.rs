//! The leaf record and the leaf rule, whatever the method of looking up.

use crate::case::{Case, MOST_CUSTOMERS};
use crate::decisions::{ends, Exits};
use crate::fault::Denial;
use crate::measure::{Measure, Move};

pub const LETTER: u8 = b'L';
pub const MOST_SCALE: i64 = 1_000;
/// The bound of van price and values, and that of duals, on both sides of 0.
pub const MOST_VALUE: i64 = 1_000_000_000_000_000;
pub const MOST_DUAL: i64 = 1_000_000_000_000;

/// Where the fields of a record stand.
const SCALE: usize = 1;
const VAN_PRICE: usize = 3;
const DUALS: usize = 11;

pub struct Entry<M: Measure> {
    /// The number of the entry in the record.
    pub number: usize,
    pub place: usize,
    pub value: i64,
    pub corner: M::State,
}

/// What a leaf record has.
pub struct Leaf<M: Measure> {
    scale: i64,
    van_price: i64,
    /// The dual of each customer; 0 for the depot.
    duals: [i64; MOST_CUSTOMERS as usize + 1],
    pub entries: Vec<Entry<M>>,
}

/// A method of looking up H, and of testing all entries with it.
pub trait Potentials: Default {
    type Measure: Measure;

    /// Takes over the entries of a leaf. Their order may change.
    fn fill(&mut self, customers: usize, entries: &mut [Entry<Self::Measure>]);

    /// H at a place and a state. At the depot a trip has nothing left to pay,
    /// whatever its state.
    fn at(&self, place: usize, state: <Self::Measure as Measure>::State) -> Option<i64>;

    /// The number of the first entry that breaks part 1 of the rule, and the
    /// first arc along which it does, among the arcs left of a case.
    fn first_broken(&self, leaf: &Leaf<Self::Measure>, case: &Case, exits: &Exits) -> Option<Broken>;

    /// Whether an arc allows a value in a state at its start.
    fn allow(&self, arc: &PricedArc, state: <Self::Measure as Measure>::State, value: i64) -> bool {
        match Self::Measure::step(state, &arc.by) {
            Some(next) => arc.allows(value, self.at(arc.to, next)),
            // An absent step asks nothing.
            None => true,
        }
    }
}

/// The number of an entry, and the arc along which it breaks the rule.
pub type Broken = (usize, (usize, usize));

/// An arc in the units of a leaf.
pub struct PricedArc {
    pub to: usize,
    pub by: Move,
    /// The cost of the arc, scaled, less the dual of its end.
    price: i64,
}

impl PricedArc {
    /// Whether a value is allowed before the arc, by H after it.
    pub fn allows(&self, value: i64, rest: Option<i64>) -> bool {
        rest.is_some_and(|rest| value <= self.price + rest)
    }
}

/// Tests leaves by one measure. It keeps its lists from leaf to leaf.
pub struct LeafTester<P: Potentials> {
    leaf: Leaf<P::Measure>,
    potentials: P,
}

impl<P: Potentials> Default for LeafTester<P> {
    fn default() -> Self {
        let leaf = Leaf { scale: 0, van_price: 0, duals: [0; MOST_CUSTOMERS as usize + 1], entries: Vec::new() };
        LeafTester { leaf, potentials: P::default() }
    }
}

impl<P: Potentials> LeafTester<P> {
    /// Tests the leaf in a record, on the arcs left of a case, for a plan of
    /// that cost.
    pub fn test(&mut self, case: &Case, exits: &Exits, cost: i64, record: &[u8]) -> Result<(), Denial> {
        self.leaf.read(case.customers, record)?;
        self.potentials.fill(case.customers, &mut self.leaf.entries);
        self.test_entries(case, exits)?;
        self.test_depot(case, exits)?;
        self.leaf.test_bound(case, cost)
    }

    /// Part 1 of the rule.
    fn test_entries(&self, case: &Case, exits: &Exits) -> Result<(), Denial> {
        match self.potentials.first_broken(&self.leaf, case, exits) {
            Some((number, arc)) => Err(Denial::on_arc(22, arc, entry_offset::<P::Measure>(case.customers, number))),
            None => Ok(()),
        }
    }

    /// Part 2 of the rule: the van price is tested like an entry at the depot
    /// in the start state. No arc joins the depot to itself.
    fn test_depot(&self, case: &Case, exits: &Exits) -> Result<(), Denial> {
        let start = P::Measure::start(case.places[0].opening);
        let broken = ends(exits[0])
            .find(|&to| !self.potentials.allow(&self.leaf.priced_arc(case, 0, to), start, self.leaf.van_price));
        match broken {
            Some(to) => Err(Denial::on_arc(23, (0, to), 0)),
            None => Ok(()),
        }
    }
}

impl<M: Measure> Leaf<M> {
    fn read(&mut self, customers: usize, record: &[u8]) -> Result<(), Denial> {
        let count_at = DUALS + 8 * customers;
        let count = match record.get(count_at..count_at + 2) {
            Some(&[low, high]) => usize::from(u16::from_le_bytes([low, high])),
            _ => return Err(Denial::at(8, 0)),
        };
        if record[0] != LETTER || record.len() != entry_offset::<M>(customers, count) {
            return Err(Denial::at(8, 0));
        }

        self.scale = i64::from(u16::from_le_bytes([record[SCALE], record[SCALE + 1]]));
        if !(1..=MOST_SCALE).contains(&self.scale) {
            return Err(Denial::at(9, SCALE));
        }
        self.van_price = signed(record, VAN_PRICE, MOST_VALUE)?;
        for customer in 1..=customers {
            self.duals[customer] = signed(record, DUALS + 8 * (customer - 1), MOST_DUAL)?;
        }

        self.entries.clear();
        self.entries.reserve(count);
        for number in 0..count {
            let at = entry_offset::<M>(customers, number);
            let place = usize::from(record[at]);
            if !(1..=customers).contains(&place) {
                return Err(Denial::at(9, at));
            }
            let value = signed(record, at + 1, MOST_VALUE)?;
            let corner = &record[at + 9..at + 9 + 8 * M::WORDS];
            let corner = M::read(corner).ok_or(Denial::at(9, at + 9))?;
            self.entries.push(Entry { number, place, value, corner });
        }
        Ok(())
    }

    /// An arc of the case in the units of the leaf.
    pub fn priced_arc(&self, case: &Case, from: usize, to: usize) -> PricedArc {
        let arc = case.row(from)[to];
        let end = &case.places[to];
        let by = Move {
            opening: end.opening,
            closing: end.closing,
            load: end.load,
            service: case.places[from].service,
            travel: arc.travel,
            capacity: case.capacity,
        };
        PricedArc { to, by, price: self.scale * i64::from(arc.cost) - self.duals[to] }
    }

    /// Part 3 of the rule.
    fn test_bound(&self, case: &Case, cost: i64) -> Result<(), Denial> {
        let vans = if self.van_price < 0 { case.most } else { case.least };
        let duals: i64 = self.duals[1..=case.customers].iter().sum();
        let bound = duals + self.van_price * i64::from(vans);
        if bound > self.scale * (cost - 1) {
            Ok(())
        } else {
            Err(Denial::at(24, 0))
        }
    }
}

/// Where an entry begins in the record; for the count of entries, the
/// record's length.
const fn entry_offset<M: Measure>(customers: usize, number: usize) -> usize {
    DUALS + 8 * customers + 2 + number * (9 + 8 * M::WORDS)
}

/// A signed field of a record, within a bound on both sides of 0.
fn signed(record: &[u8], at: usize, bound: i64) -> Result<i64, Denial> {
    let bytes = record[at..at + 8].try_into().expect("eight bytes");
    let value = i64::from_le_bytes(bytes);
    if (-bound..=bound).contains(&value) {
        Ok(value)
    } else {
        Err(Denial::at(9, at))
    }
}
