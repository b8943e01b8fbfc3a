//! Badges under review: which sets may be reviewed, and which queries go with them.

use super::Refusal;
use super::graphs::full;

/// "the set is empty or has a badge of n or more": 20.
pub fn check_review(n: usize, review: u64) -> Result<(), Refusal> {
    if review == 0 || review & !full(n) != 0 { Err((20, 0)) } else { Ok(()) }
}

/// "the query has a badge of n or more": 13. Then "the query has a badge outside" the reviewed set: 21.
pub fn check_query(n: usize, review: u64, query: u64) -> Result<(), Refusal> {
    if query & !full(n) != 0 {
        return Err((13, 0));
    }
    if query & !review != 0 { Err((21, 0)) } else { Ok(()) }
}
