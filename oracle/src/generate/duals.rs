//! Dual values: a linear programme over trips, solved by the simplex method
//! with trips priced as they are needed.

use super::space::{Space, Sweep};
use crate::case::Case;

const SMALL: f64 = 1e-7;

/// A trip as its customers in order, with its cost.
struct Trip {
    stops: Vec<usize>,
    cost: f64,
}

pub struct Solution {
    /// The dual of each customer; 0 for the depot.
    pub duals: Vec<f64>,
    /// How much of each arc the programme's best mix of trips drives.
    pub flows: Vec<((usize, usize), f64)>,
}

/// A column of the programme: its cost, its coefficients and its trip.
struct Column {
    cost: f64,
    rows: Vec<f64>,
    trip: Option<Trip>,
}

/// Rows 0 to n − 1 ask that each customer is visited once, row n asks for the
/// least and row n + 1 for the most number of routes.
struct Simplex {
    basis: Vec<Column>,
    inverse: Vec<Vec<f64>>,
    amounts: Vec<f64>,
}

impl Simplex {
    fn new(case: &Case, fine: f64) -> Self {
        let n = case.customers;
        let unit = |row: usize| (0..n + 2).map(|k| f64::from(u8::from(k == row))).collect::<Vec<_>>();
        let mut amounts = vec![1.0; n];
        amounts.extend([f64::from(case.least), f64::from(case.most)]);
        let basis = (0..n + 2)
            .map(|row| Column { cost: if row == n + 1 { 0.0 } else { fine }, rows: unit(row), trip: None })
            .collect();
        Simplex { basis, inverse: (0..n + 2).map(unit).collect(), amounts }
    }

    fn duals(&self) -> Vec<f64> {
        let mut duals = vec![0.0; self.amounts.len()];
        for (column, row) in self.basis.iter().zip(&self.inverse) {
            for (dual, x) in duals.iter_mut().zip(row) {
                *dual += column.cost * x;
            }
        }
        duals
    }

    /// Brings a column into the basis. False if it could grow without end.
    fn enter(&mut self, column: Column) -> bool {
        let direction: Vec<f64> =
            self.inverse.iter().map(|row| row.iter().zip(&column.rows).map(|(a, b)| a * b).sum()).collect();
        let leaving = (0..direction.len())
            .filter(|&row| direction[row] > SMALL)
            .min_by(|&a, &b| (self.amounts[a] / direction[a]).total_cmp(&(self.amounts[b] / direction[b])));
        let Some(leaving) = leaving else { return false };
        let pivot = direction[leaving];
        let amount = self.amounts[leaving] / pivot;
        let pivot_row: Vec<f64> = self.inverse[leaving].iter().map(|x| x / pivot).collect();
        for row in (0..direction.len()).filter(|&row| row != leaving) {
            self.amounts[row] -= direction[row] * amount;
            for (x, p) in self.inverse[row].iter_mut().zip(&pivot_row) {
                *x -= direction[row] * p;
            }
        }
        self.amounts[leaving] = amount;
        self.inverse[leaving] = pivot_row;
        self.basis[leaving] = column;
        true
    }

    fn flows(&self) -> Vec<((usize, usize), f64)> {
        let mut flows: Vec<((usize, usize), f64)> = Vec::new();
        for (column, &amount) in self.basis.iter().zip(&self.amounts) {
            let Some(trip) = &column.trip else { continue };
            let froms = std::iter::once(0).chain(trip.stops.iter().copied());
            let tos = trip.stops.iter().copied().chain([0]);
            for arc in froms.zip(tos) {
                match flows.iter_mut().find(|(known, _)| *known == arc) {
                    Some((_, flow)) => *flow += amount,
                    None => flows.push((arc, amount)),
                }
            }
        }
        flows
    }
}

/// Duals whose bound is as great as was found within some pivots. `fine` is
/// what a customer left out costs in the programme.
pub fn solve(case: &Case, space: &Space, fine: f64, pivots: usize) -> Option<Solution> {
    let n = case.customers;
    let mut simplex = Simplex::new(case, fine);
    let mut best: Option<(f64, Vec<f64>)> = None;
    for _ in 0..pivots {
        let rows = simplex.duals();
        let duals: Vec<f64> = std::iter::once(0.0).chain(rows[..n].iter().copied()).collect();
        let (least, most) = (rows[n], rows[n + 1]);
        let Some(sweep) = space.sweep(1e12, |cost, to| f64::from(cost) - duals[to]) else { break };
        let van_price = sweep.depot.map_or(0.0, |(price, _)| price);
        let vans = if van_price < 0.0 { case.most } else { case.least };
        let bound = duals.iter().sum::<f64>() + van_price * f64::from(vans);
        if best.as_ref().is_none_or(|(known, _)| bound > *known) {
            best = Some((bound, duals.clone()));
        }

        let unit = |row: usize, sign: f64| {
            let rows = (0..n + 2).map(|k| if k == row { sign } else { 0.0 }).collect();
            Column { cost: 0.0, rows, trip: None }
        };
        let entering = if least < -SMALL {
            unit(n, -1.0)
        } else if most > SMALL {
            unit(n + 1, 1.0)
        } else if sweep.depot.is_some() && van_price < least + most - SMALL {
            match trip_of(space, &sweep, &duals) {
                Some(trip) => column_of(n, trip),
                None => break,
            }
        } else {
            break;
        };
        if !simplex.enter(entering) {
            break;
        }
    }
    let (_, duals) = best?;
    Some(Solution { duals, flows: simplex.flows() })
}

fn column_of(n: usize, trip: Trip) -> Column {
    let mut rows = vec![0.0; n];
    for &stop in &trip.stops {
        rows[stop - 1] += 1.0;
    }
    rows.extend([1.0, 1.0]);
    Column { cost: trip.cost, rows, trip: Some(trip) }
}

/// The trip that has the value at the depot.
fn trip_of(space: &Space, sweep: &Sweep<f64>, duals: &[f64]) -> Option<Trip> {
    const LONGEST: usize = 400;
    let (price, first) = sweep.depot?;
    let mut stops = Vec::new();
    let mut at = Some(first);
    while let Some(node) = at {
        stops.push(space.nodes[node].place);
        at = sweep.next[node];
        if stops.len() > LONGEST {
            return None;
        }
    }
    let collected: f64 = stops.iter().map(|&stop| duals[stop]).sum();
    let cost = (price + collected).round();
    // A trip that ends in a dead end is none.
    (cost < 1e11).then_some(Trip { stops, cost })
}
