//! Algorithm 2 of the span-core paper, with its slips mended: spans from long to short; on each the larger order of the two that are one tick longer
//! is a lower bound, and only badges with more neighbours than that are looked at, for the innermost core above it.

use super::lists::{circles, neighbours};
use super::{encode_report, is_day, members, Group};

/// The innermost core above an order among the badges of a span: its order and members, if there is one.
fn innermost(neighbours: &[Vec<usize>], above: usize) -> Option<(usize, u64)> {
    let n = neighbours.len();
    let mut kept = vec![true; n];
    let mut degree: Vec<usize> = neighbours.iter().map(Vec::len).collect();
    let mut best = None;
    for k in above + 1..n {
        let mut low: Vec<usize> = (0..n).filter(|&u| kept[u] && degree[u] < k).collect();
        while let Some(u) = low.pop() {
            if !kept[u] {
                continue;
            }
            kept[u] = false;
            for &v in &neighbours[u] {
                if kept[v] {
                    degree[v] -= 1;
                    if degree[v] < k {
                        low.push(v);
                    }
                }
            }
        }
        let core = members((0..n).filter(|&u| kept[u]));
        if core == 0 {
            break;
        }
        best = Some((k, core));
    }
    best
}

pub fn report(words: &[u64], n: usize, ticks: usize, out: &mut [u8]) -> Option<usize> {
    if !is_day(words, n, ticks) {
        return None;
    }
    let mut orders = vec![0; ticks * ticks];
    let mut groups: Vec<Group> = Vec::new();
    for length in (1..=ticks).rev() {
        for first in 0..=ticks - length {
            let last = first + length - 1;
            let before = if first == 0 { 0 } else { orders[(first - 1) * ticks + last] };
            let after = if last + 1 == ticks { 0 } else { orders[first * ticks + last + 1] };
            let bound: usize = before.max(after);
            orders[first * ticks + last] = bound;
            let neighbours = neighbours(words, n, first, last);
            if let Some((order, core)) = innermost(&neighbours, bound) {
                orders[first * ticks + last] = order;
                groups.extend(circles(&neighbours, core).into_iter().map(|circle| (order as u8, first, last, circle)));
            }
        }
    }
    groups.sort_by_key(|g| (g.1, g.2)); // stable: the circles of a core stay in their order
    encode_report(n, ticks, &groups, out)
}
