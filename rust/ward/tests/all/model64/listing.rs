//! The lines of a listing.

use super::Record;

/// "First line: n, T, number of groups. Then per group its order, first and last tick, members rising."
pub fn group_lines(n: usize, ticks: usize, groups: &[Record]) -> Vec<String> {
    let mut lines = vec![format!("badges {n} ticks {ticks} groups {}\n", groups.len())];
    for &(order, first, last, members) in groups {
        let badges: String = (0..64).filter(|v| members >> v & 1 == 1).map(|v| format!(" {v}")).collect();
        lines.push(format!("order {order} ticks {first} to {last} badges{badges}\n"));
    }
    lines
}
