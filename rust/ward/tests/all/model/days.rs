//! The day, its words and the check of words.

use super::Refusal;

/// A day: n, T, and for each badge in each tick, tick after tick, the set of those it is in contact with, bit v for badge v.
#[derive(Clone)]
pub struct Day {
    pub n: usize,
    pub ticks: usize,
    sets: Vec<u128>,
}

impl Day {
    pub fn empty(n: usize, ticks: usize) -> Day {
        Day { n, ticks, sets: vec![0; n * ticks] }
    }

    /// The set of those in contact with a badge in a tick.
    pub fn contacts(&self, t: usize, u: usize) -> u128 {
        self.sets[t * self.n + u]
    }

    pub fn met(&self, t: usize, u: usize, v: usize) -> bool {
        self.contacts(t, u) >> v & 1 == 1
    }

    /// Puts two different badges in contact.
    pub fn meet(&mut self, t: usize, u: usize, v: usize) {
        self.sets[t * self.n + u] |= 1 << v;
        self.sets[t * self.n + v] |= 1 << u;
    }

    /// "A badge set becomes two 64-bit words, lower badges first, in day words (word 2(t×n+u) and the next)".
    pub fn words(&self) -> Vec<u64> {
        self.sets.iter().flat_map(|set| [*set as u64, (set >> 64) as u64]).collect()
    }

    /// The unbroken runs of ticks, by smaller badge, larger badge and first tick.
    pub fn runs(&self) -> Vec<[u8; 4]> {
        let mut runs = Vec::new();
        for u in 0..self.n {
            let ever = (0..self.ticks).fold(0, |ever, t| ever | self.contacts(t, u));
            for v in (u + 1..self.n).filter(|v| ever >> v & 1 == 1) {
                let mut t = 0;
                while t < self.ticks {
                    let first = t;
                    while t < self.ticks && self.met(t, u, v) {
                        t += 1;
                    }
                    if first < t {
                        runs.push([u as u8, v as u8, first as u8, t as u8 - 1]);
                    }
                    t += 1;
                }
            }
        }
        runs
    }
}

/// How many words a day takes: "8 now counts 2×n×T words".
pub fn words_for(n: usize, ticks: usize) -> usize {
    2 * n * ticks
}

/// "n from 1 to 128", "T from 1 to 96".
pub fn within_limits(n: usize, ticks: usize) -> bool {
    (1..=128).contains(&n) && (1..=96).contains(&ticks)
}

/// The check of words: 10, 8, 11.
pub fn check(words: &[u64], n: usize, ticks: usize) -> Result<Day, Refusal> {
    if !within_limits(n, ticks) {
        return Err((10, 0));
    }
    if words.len() < words_for(n, ticks) {
        return Err((8, 0));
    }
    let mut day = Day::empty(n, ticks);
    let bit = |t: usize, u: usize, v: usize| words[2 * (t * n + u) + v / 64] >> (v % 64) & 1 == 1;
    for t in 0..ticks {
        for u in 0..n {
            for v in 0..128 {
                if bit(t, u, v) {
                    if v == u || v >= n || !bit(t, v, u) {
                        return Err((11, 0));
                    }
                    day.meet(t, u, v);
                }
            }
        }
    }
    Ok(day)
}
