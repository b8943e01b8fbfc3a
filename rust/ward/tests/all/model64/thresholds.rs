//! Thresholds: what they may be, and the records that pass them.

use super::{Record, Refusal};
use std::ops::RangeInclusive;

/// Least length in ticks, least order, least members.
pub type Least = [usize; 3];

const LEAST_TICKS: RangeInclusive<usize> = 1..=96;
const LEAST_ORDER: RangeInclusive<usize> = 1..=63;
const LEAST_MEMBERS: RangeInclusive<usize> = 2..=64;

/// The check of thresholds: 17.
pub fn check_least([ticks, order, members]: Least) -> Result<(), Refusal> {
    let good = LEAST_TICKS.contains(&ticks) && LEAST_ORDER.contains(&order) && LEAST_MEMBERS.contains(&members);
    if good { Ok(()) } else { Err((17, 0)) }
}

/// "the records of the full report that meet all three, in their order". A record has the length and the order of its core, and the members of one
/// circle of it: "Least members is counted per circle."
pub fn kept(groups: &[Record], [ticks, order, members]: Least) -> Vec<Record> {
    let meets = |group: &&Record| group.2 - group.1 + 1 >= ticks && group.0 >= order && group.3.count_ones() as usize >= members;
    groups.iter().filter(meets).copied().collect()
}
