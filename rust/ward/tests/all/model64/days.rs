//! The day, its words and the check of words.

use super::Refusal;

/// A day: n, T, and whether u and v are in contact in tick t.
#[derive(Clone)]
pub struct Day {
    pub n: usize,
    pub ticks: usize,
    met: Vec<bool>,
}

impl Day {
    pub fn empty(n: usize, ticks: usize) -> Day {
        Day { n, ticks, met: vec![false; n * n * ticks] }
    }

    fn place(&self, t: usize, u: usize, v: usize) -> usize {
        (t * self.n + u) * self.n + v
    }

    pub fn met(&self, t: usize, u: usize, v: usize) -> bool {
        self.met[self.place(t, u, v)]
    }

    /// Puts two different badges in contact.
    pub fn meet(&mut self, t: usize, u: usize, v: usize) {
        let (a, b) = (self.place(t, u, v), self.place(t, v, u));
        self.met[a] = true;
        self.met[b] = true;
    }

    /// One word a badge, tick after tick.
    pub fn words(&self) -> Vec<u64> {
        let mut words = vec![0; self.n * self.ticks];
        for t in 0..self.ticks {
            for u in 0..self.n {
                for v in 0..self.n {
                    if self.met(t, u, v) {
                        words[t * self.n + u] |= 1 << v;
                    }
                }
            }
        }
        words
    }

    /// The unbroken runs of ticks, by smaller badge, larger badge and first tick.
    pub fn runs(&self) -> Vec<[u8; 4]> {
        let mut runs = Vec::new();
        for u in 0..self.n {
            for v in u + 1..self.n {
                let mut t = 0;
                while t < self.ticks {
                    let first = t;
                    while t < self.ticks && self.met(t, u, v) {
                        t += 1;
                    }
                    if first < t {
                        runs.push([u as u8, v as u8, first as u8, t as u8 - 1]);
                    }
                    t += 1;
                }
            }
        }
        runs
    }
}

/// The check of words: 10, 8, 11.
pub fn check(words: &[u64], n: usize, ticks: usize) -> Result<Day, Refusal> {
    if !(1..=64).contains(&n) || !(1..=96).contains(&ticks) {
        return Err((10, 0));
    }
    if words.len() < n * ticks {
        return Err((8, 0));
    }
    let mut day = Day::empty(n, ticks);
    for t in 0..ticks {
        for u in 0..n {
            for v in 0..64 {
                if words[t * n + u] >> v & 1 == 1 {
                    if v == u || v >= n || words[t * n + v] >> u & 1 == 0 {
                        return Err((11, 0));
                    }
                    day.meet(t, u, v);
                }
            }
        }
    }
    Ok(day)
}
