//! The cores of one graph, given as one row a badge. Rows need not be symmetric, and a badge may be in its own row.

use super::Day;

/// For each badge the set of its neighbours.
pub struct Graph {
    rows: Vec<u128>,
}

impl Graph {
    pub fn new(rows: Vec<u128>) -> Graph {
        Graph { rows }
    }

    /// The pairs in contact in every tick of a span.
    pub fn throughout(day: &Day, first: usize, last: usize) -> Graph {
        let everyone = full(day.n);
        let row = |u: usize| (first..=last).fold(everyone, |row, t| row & day.contacts(t, u));
        Graph::new((0..day.n).map(row).collect())
    }

    /// How many of a set are in the row of u.
    fn degree(&self, set: u128, u: usize) -> usize {
        (self.rows[u] & set).count_ones() as usize
    }

    /// The least degree of a set; none of an empty one.
    pub fn least_degree(&self, set: u128) -> Option<usize> {
        members(set).map(|u| self.degree(set, u)).min()
    }

    /// The core of an order among the badges of a set: those with a degree below k are dropped until none is left to drop. Empty where nobody is
    /// left.
    pub fn core(&self, base: u128, k: usize) -> u128 {
        let mut left = base;
        loop {
            let dropped: u128 = members(left).filter(|&u| self.degree(left, u) < k).map(|u| 1 << u).sum();
            if dropped == 0 {
                return left;
            }
            left &= !dropped;
        }
    }

    /// The cores of order 1, 2 and so on among the badges of a set, as far as there are any: each among the badges of the one before.
    pub fn cores(&self, base: u128) -> Vec<u128> {
        let (mut cores, mut left) = (Vec::new(), self.core(base, 1));
        while left != 0 {
            cores.push(left);
            left = self.core(left, cores.len() + 1);
        }
        cores
    }

    /// The members of a set that can be reached from one of them through chains of pairs between members: those joined to somebody reached are added
    /// until nobody is left to add.
    fn reached(&self, set: u128, from: usize) -> u128 {
        let mut reached = 1 << from;
        loop {
            let more = members(reached).fold(reached, |more, u| more | self.rows[u] & set);
            if more == reached {
                return reached;
            }
            reached = more;
        }
    }

    /// The circles of a set, by smallest member: "its members split by who is joined to whom through chains of the span's pairs between members".
    pub fn circles(&self, set: u128) -> Vec<u128> {
        let mut circles: Vec<u128> = Vec::new();
        for u in members(set) {
            if circles.iter().all(|circle| circle >> u & 1 == 0) {
                circles.push(self.reached(set, u));
            }
        }
        circles
    }

    /// The largest order whose core has the badge, else 0: for each badge.
    pub fn core_numbers(&self, base: u128) -> Vec<u8> {
        let cores = self.cores(base);
        let number = |u: usize| cores.iter().rposition(|core| core >> u & 1 == 1).map_or(0, |place| place as u8 + 1);
        (0..self.rows.len()).map(number).collect()
    }
}

/// The badges of a set, rising.
fn members(mut set: u128) -> impl Iterator<Item = usize> {
    std::iter::from_fn(move || {
        let smallest = set.trailing_zeros() as usize;
        set &= set.checked_sub(1)?;
        Some(smallest)
    })
}

/// All badges below n.
pub fn full(n: usize) -> u128 {
    (0..n).map(|u| 1 << u).sum()
}
