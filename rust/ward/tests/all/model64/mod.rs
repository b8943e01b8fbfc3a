//! The second implementation as it was for days of up to 64 badges, when a set of badges was one word: what request Nine has to leave as it was. Its
//! functions are unchanged; those that nothing needs here are gone.

mod days;
mod graphs;
mod joining;
mod listing;
mod logs;
mod records;
mod reviews;
mod spans;
mod thresholds;
mod tracing;

pub use days::{Day, check};
pub use graphs::Graph;
pub use joining::join;
pub use listing::group_lines;
pub use logs::{judge, log_bytes};
pub use records::{Record, plan_bytes, report_bytes};
pub use reviews::{check_query, check_review};
pub use spans::Cores;
pub use thresholds::{Least, check_least, kept};
pub use tracing::{check_start, trace};

/// A refusal's number and offset.
pub type Refusal = (u8, usize);
