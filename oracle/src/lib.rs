//! An independent oracle for `judge`, written from the pages in `docs/` alone.
//!
//! [`judge`] gives the line that `judge` prints for three files. The other
//! modules are in the order in which the files are judged: the case text, the
//! plan text and its listing, the tree file, its records and their leaves.
//! Leaves are tested by one of two methods, [`swift`] and [`plain`].
//! [`generate`] makes inputs to compare the two on, [`bench_inputs`] those of
//! the benchmark.

pub mod bench_inputs;
pub mod case;
pub mod check;
pub mod decisions;
pub mod fault;
pub mod generate;
pub mod leaf;
pub mod measure;
pub mod plain;
pub mod plan;
pub mod swift;
pub mod tree;
pub mod words;

use case::Case;
use check::Check;
use fault::{Fault, Part};
use leaf::Potentials;
use measure::{Load, Pair, Time};
use plain::PlainPotentials;
use swift::{PackedPair, SwiftPotentials};
use tree::{Kind, TreeFile};

/// A file above this many bytes counts as empty.
pub const FILE_LIMIT: usize = 65_536;

/// How leaves are tested. The line is the same.
#[derive(Clone, Copy, Debug, PartialEq, Eq)]
pub enum Method {
    /// With look-ups made for each measure.
    Swift,
    /// With one look-up for all measures, as one writes it first.
    Plain,
}

/// The line printed for the bytes of `case.txt`, `plan.txt` and `tree.bin`,
/// without its line feed.
pub fn judge(case: &[u8], plan: &[u8], tree: &[u8]) -> String {
    judge_by(Method::Swift, case, plan, tree)
}

/// The same by a given method.
pub fn judge_by(method: Method, case: &[u8], plan: &[u8], tree: &[u8]) -> String {
    match verdict(method, readable(case), readable(plan), readable(tree)) {
        Ok(Verdict::Optimal { cost }) => format!("optimal {cost}"),
        Ok(Verdict::Open { decisions }) => format!("open {decisions}"),
        Err(fault) => fault.to_string(),
    }
}

/// What is said of three files without a fault.
#[derive(Clone, Copy, Debug, PartialEq, Eq)]
pub enum Verdict {
    Optimal { cost: i64 },
    Open { decisions: usize },
}

/// The verdict on the contents of three files, or the first fault.
pub fn verdict(method: Method, case: &[u8], plan: &[u8], tree: &[u8]) -> Result<Verdict, Fault> {
    let case = case::read(case).map_err(|denial| denial.outside_records(Part::Case))?;
    let listing = plan::read(plan).map_err(|denial| denial.outside_records(Part::Plan))?;
    let priced = plan::price(&case, &listing).map_err(|denial| denial.outside_records(Part::Plan))?;
    let tree = tree::read(tree, case.customers).map_err(|denial| denial.outside_records(Part::Tree))?;
    let take = match (method, tree.kind) {
        (Method::Swift, Kind::Time) => take_records::<SwiftPotentials<Time>>,
        (Method::Swift, Kind::Load) => take_records::<SwiftPotentials<Load>>,
        (Method::Swift, Kind::Pair) => take_records::<SwiftPotentials<PackedPair>>,
        (Method::Plain, Kind::Time) => take_records::<PlainPotentials<Time>>,
        (Method::Plain, Kind::Load) => take_records::<PlainPotentials<Load>>,
        (Method::Plain, Kind::Pair) => take_records::<PlainPotentials<Pair<Time, Load>>>,
    };
    take(&case, priced.cost, &tree)
}

fn take_records<P: Potentials>(case: &Case, cost: i64, tree: &TreeFile) -> Result<Verdict, Fault> {
    let mut check = Check::<P>::new(case, cost);
    for (node, record) in tree.records.iter().enumerate() {
        check.take(record.bytes).map_err(|denial| denial.in_record(node, record.offset))?;
    }
    Ok(check.ask())
}

fn readable(file: &[u8]) -> &[u8] {
    if file.len() > FILE_LIMIT {
        &[]
    } else {
        file
    }
}
