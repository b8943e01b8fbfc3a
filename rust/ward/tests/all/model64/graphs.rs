//! The cores of one graph, given as one row a badge. Rows need not be symmetric, and a badge may be in its own row.

use super::Day;

/// Whether v is in the row of u.
pub struct Graph {
    joined: Vec<Vec<bool>>,
}

impl Graph {
    pub fn new(n: usize, joined: impl Fn(usize, usize) -> bool) -> Graph {
        Graph { joined: (0..n).map(|u| (0..n).map(|v| joined(u, v)).collect()).collect() }
    }

    /// The pairs in contact in every tick of a span.
    pub fn throughout(day: &Day, first: usize, last: usize) -> Graph {
        Graph::new(day.n, |u, v| (first..=last).all(|t| day.met(t, u, v)))
    }

    /// How many of a set are in the row of u.
    fn degree(&self, set: u64, u: usize) -> usize {
        self.joined[u].iter().enumerate().filter(|(v, joined)| **joined && set >> v & 1 == 1).count()
    }

    /// The core of an order among the badges of a set: those with a degree below k are dropped until none is left to drop. Empty where nobody is
    /// left.
    pub fn core(&self, base: u64, k: usize) -> u64 {
        let n = self.joined.len();
        let mut left = base;
        let mut degree: Vec<usize> = (0..n).map(|u| self.degree(base, u)).collect();
        while let Some(u) = (0..n).find(|&u| left >> u & 1 == 1 && degree[u] < k) {
            left &= !(1 << u);
            for v in (0..n).filter(|&v| self.joined[v][u]) {
                degree[v] -= 1;
            }
        }
        left
    }

    /// The cores of order 1, 2 and so on among the badges of a set, as far as there are any.
    pub fn cores(&self, base: u64) -> Vec<u64> {
        (1..).map(|k| self.core(base, k)).take_while(|core| *core != 0).collect()
    }

    /// The members of a set that can be reached from one of them through chains of pairs between members: what is joined to somebody reached is added
    /// until nobody is left to add.
    fn reached(&self, set: u64, from: usize) -> u64 {
        let n = self.joined.len();
        let mut reached = 1 << from;
        while let Some(v) = (0..n).find(|&v| set & !reached & 1 << v != 0 && (0..n).any(|u| reached >> u & 1 == 1 && self.joined[u][v])) {
            reached |= 1 << v;
        }
        reached
    }

    /// The circles of a set, by smallest member: "its members split by who is joined to whom through chains of the span's pairs between members".
    pub fn circles(&self, set: u64) -> Vec<u64> {
        let mut circles: Vec<u64> = Vec::new();
        for u in (0..self.joined.len()).filter(|u| set >> u & 1 == 1) {
            if circles.iter().all(|circle| circle >> u & 1 == 0) {
                circles.push(self.reached(set, u));
            }
        }
        circles
    }

    /// The largest order whose core has the badge, else 0: for each badge.
    pub fn core_numbers(&self, base: u64) -> Vec<u8> {
        let cores = self.cores(base);
        let number = |u: usize| cores.iter().rposition(|core| core >> u & 1 == 1).map_or(0, |place| place as u8 + 1);
        (0..self.joined.len()).map(number).collect()
    }
}

/// All badges below n.
pub fn full(n: usize) -> u64 {
    (0..n).map(|u| 1 << u).sum()
}
