//! A second implementation, written plainly from documents 01 and 02 alone. It shares nothing with the engine, and is slow.

mod days;
mod graphs;
mod joining;
mod listing;
mod logs;
mod records;
mod reviews;
mod spans;
mod thresholds;
mod tracing;

pub use days::{Day, check, within_limits, words_for};
pub use graphs::{Graph, full};
pub use joining::join;
pub use listing::{group_lines, piece, refusal_lines};
pub use logs::{judge, log_bytes};
pub use records::{Record, plan_bytes, record_size, report_bytes};
pub use reviews::{check_query, check_review};
pub use spans::Cores;
pub use thresholds::{Least, PLAIN, RANGES, check_least, kept};
pub use tracing::{check_start, trace};

/// A refusal's number and offset.
pub type Refusal = (u8, usize);

/// An answer in so many bytes, of which so many are lent: 9 where it does not fit.
pub fn delivered(bytes: Vec<u8>, room: usize) -> Result<Vec<u8>, Refusal> {
    if room < bytes.len() { Err((9, 0)) } else { Ok(bytes) }
}
