//! A plain version with bitsets: for each first tick the rows of all its spans are narrowed tick by tick, until no contact is left; then the last
//! tick walks downward, and each span is peeled above the orders of the two that are one tick longer. The report's orders are the scores of the empty
//! query; the plan has its own query, and a core counts only if it contains that. The report splits each core that is shown, by the span's rows.

use super::{encode_report, is_day, Group};

/// Drops the members with fewer than k neighbours among them until none is left to drop: who is left, and the fewest neighbours that one of them has
/// there. None once a badge of the query is dropped, or k or fewer are left: a core of order k has more members than that.
pub fn core(rows: &[u64; 64], mut set: u64, query: u64, k: u32) -> Option<(u64, u32)> {
    let mut size = set.count_ones();
    if size <= k {
        return None;
    }
    loop {
        let (before, mut rest, mut least) = (set, set, 64);
        while rest != 0 {
            let u = rest.trailing_zeros() as usize;
            rest &= rest - 1;
            let degree = (rows[u] & set).count_ones();
            if degree < k {
                set &= !(1 << u);
                size -= 1;
                if size <= k || query >> u & 1 == 1 {
                    return None;
                }
            } else {
                least = least.min(degree);
            }
        }
        if set == before {
            return Some((set, least));
        }
    }
}

/// The circle of a set's smallest member: the rows of those that are reached are united, within the set, until nobody is left to reach.
fn first_circle(rows: &[u64; 64], set: u64) -> u64 {
    let (mut circle, mut waiting) = (0, set & set.wrapping_neg());
    while waiting != 0 {
        let u = waiting.trailing_zeros() as usize;
        circle |= 1 << u;
        waiting = (waiting | rows[u] & set) & !circle;
    }
    circle
}

/// The scores of the spans from one first tick after the other.
pub struct Lines<'a> {
    words: &'a [u64],
    n: usize,
    /// Of the spans from the first tick, by last tick: their rows, and the badges whose row is not empty, as far as there is one.
    spans: Vec<([u64; 64], u64)>,
    /// Their scores, by last tick.
    pub scores: [u32; 97],
}

impl Lines<'_> {
    /// Before tick 0, where no span has a score.
    pub fn new(words: &[u64], n: usize, ticks: usize) -> Lines<'_> {
        Lines { words: &words[..2 * n * ticks], n, spans: Vec::with_capacity(ticks), scores: [0; 97] }
    }

    /// Narrows rows from a first tick on, as far as a contact is left, and one of each badge of the query.
    fn narrow(&mut self, first: usize, query: u64) {
        self.spans.clear();
        let mut rows = [!0; 64];
        for tick in self.words.chunks_exact(2 * self.n).skip(first) {
            let mut joined = 0;
            for (row, set) in rows.iter_mut().zip(tick.chunks_exact(2)) {
                *row &= set[0];
                joined |= *row;
            }
            if joined == 0 || query & !joined != 0 {
                break;
            }
            self.spans.push((rows, joined));
        }
    }

    /// Goes on to the next first tick, and shows the cores whose order is above that of both spans one tick longer, from the last tick downward, with
    /// the rows of their spans.
    pub fn walk(&mut self, first: usize, query: u64, mut show: impl FnMut(u32, usize, u64, &[u64; 64])) {
        self.narrow(first, query);
        self.scores[first + self.spans.len()..].fill(0);
        for (i, &(ref rows, joined)) in self.spans.iter().enumerate().rev() {
            let last = first + i;
            // scores[last] is still that of the span from the tick before first
            let bound = self.scores[last].max(self.scores[last + 1]);
            let (mut set, mut k) = (joined, bound);
            while let Some(left) = core(rows, set, query, k + 1) {
                (set, k) = left;
            }
            self.scores[last] = k;
            if k > bound {
                show(k, last, set, rows);
            }
        }
    }
}

pub fn report(words: &[u64], n: usize, ticks: usize, out: &mut [u8]) -> Option<usize> {
    if !is_day(words, n, ticks) {
        return None;
    }
    let mut groups: Vec<Group> = Vec::new();
    let mut lines = Lines::new(words, n, ticks);
    for first in 0..ticks {
        let from = groups.len();
        lines.walk(first, 0, |order, last, mut core, rows| {
            let from = groups.len();
            while core != 0 {
                let circle = first_circle(rows, core);
                core &= !circle;
                groups.push((order as u8, first, last, circle));
            }
            groups[from..].reverse();
        });
        groups[from..].reverse();
    }
    encode_report(n, ticks, &groups, out)
}
