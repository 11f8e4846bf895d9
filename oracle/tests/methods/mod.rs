//! What the tests judge by.

use oracle::{judge_by, Method};

/// The line of three files, on which both methods agree.
pub fn judge(case: &[u8], plan: &[u8], tree: &[u8]) -> String {
    let line = oracle::judge(case, plan, tree);
    assert_eq!(judge_by(Method::Plain, case, plan, tree), line);
    line
}
