//! The check: takes the records of a tree for a plan that is held.

use crate::case::Case;
use crate::decisions::{exits_left, Decision, Side, DEEPEST};
use crate::fault::Denial;
use crate::leaf::{self, LeafTester, Potentials};
use crate::Verdict;

pub const FORK_LETTER: u8 = b'A';

pub struct Check<'a, P: Potentials> {
    case: &'a Case,
    /// The cost of the plan held.
    cost: i64,
    decisions: Vec<Decision>,
    finished: bool,
    tester: LeafTester<P>,
}

impl<'a, P: Potentials> Check<'a, P> {
    pub fn new(case: &'a Case, cost: i64) -> Self {
        Check { case, cost, decisions: Vec::with_capacity(DEEPEST), finished: false, tester: LeafTester::default() }
    }

    /// Takes a record: one of a leaf's letter is a close, any other a fork.
    pub fn take(&mut self, record: &[u8]) -> Result<(), Denial> {
        if record.first() == Some(&leaf::LETTER) {
            self.close(record)
        } else {
            self.fork(record)
        }
    }

    fn fork(&mut self, record: &[u8]) -> Result<(), Denial> {
        let &[FORK_LETTER, from, to] = record else {
            return Err(Denial::at(8, 0));
        };
        if self.finished {
            return Err(Denial::at(20, 0));
        }
        let (from, to) = (usize::from(from), usize::from(to));
        if from > self.case.customers || to > self.case.customers || from == to {
            return Err(Denial::at(18, 0));
        }
        if self.decisions.len() == DEEPEST {
            return Err(Denial::at(19, 0));
        }
        self.decisions.push(Decision { from, to, side: Side::Forbid });
        Ok(())
    }

    fn close(&mut self, record: &[u8]) -> Result<(), Denial> {
        if self.finished {
            return Err(Denial::at(20, 0));
        }
        let exits = exits_left(self.case, &self.decisions);
        self.tester.test(self.case, &exits, self.cost, record)?;
        self.turn();
        Ok(())
    }

    /// Goes on to the next open branch, or finishes the tree.
    fn turn(&mut self) {
        while self.decisions.pop_if(|last| last.side == Side::Force).is_some() {}
        match self.decisions.last_mut() {
            Some(last) => last.side = Side::Force,
            None => self.finished = true,
        }
    }

    pub fn ask(&self) -> Verdict {
        if self.finished {
            Verdict::Optimal { cost: self.cost }
        } else {
            Verdict::Open { decisions: self.decisions.len() }
        }
    }
}
