//! The days that the calls are measured on: from a fixed generator, of 64 badges and 96 ticks in the tables, and of any size for how the cost grows.

use crate::random::Random;

pub struct Day {
    pub badges: usize,
    pub ticks: usize,
    pub words: Vec<u64>,
}

/// The days of the tables. Sparse: about 100 of the 2,016 pairs a tick, each kept into the next with probability 0.8; busy: teams; dense: all pairs all
/// day; random: one half; persistent: nine tenths, each pair keeping its state with probability 0.8; and empty: no contact at all.
pub const NAMES: [&str; 6] = ["sparse", "busy", "dense", "random", "persistent", "empty"];

impl Day {
    /// A day of the tables, or document 01's day D1: contacts 0–1, 0–2 and 1–2 in ticks 0 to 1, and 2–3 in ticks 0 to 2. Or "circles", of which each
    /// core falls apart: 32 pairs that are others in each tick.
    pub fn named(name: &str) -> Day {
        match name {
            "d1" => Day { badges: 4, ticks: 3, words: ward::words_of(&[6, 5, 11, 4, 6, 5, 11, 4, 0, 0, 8, 4]) },
            _ => Day::sized(name, 64, 96),
        }
    }

    /// A day as one of the tables is made, with so many badges and ticks.
    pub fn sized(name: &str, badges: usize, ticks: usize) -> Day {
        let empty = Day { badges, ticks, words: vec![0; 2 * badges * ticks] };
        match name {
            "sparse" => empty.pairs(1, 49_600, 80),
            "busy" => empty.teams(5),
            "dense" => empty.pairs(2, 1_000_000, 0),
            "random" => empty.pairs(3, 500_000, 0),
            "persistent" => empty.pairs(4, 900_000, 80),
            "empty" => empty,
            "circles" => empty.other_pairs(),
            _ => panic!("no day {name}"),
        }
    }

    fn meet(&mut self, t: usize, u: usize, v: usize) {
        for (u, v) in [(u, v), (v, u)] {
            self.words[2 * (t * self.badges + u) + v / 64] |= 1 << (v % 64);
        }
    }

    /// Each pair in each tick with a probability of so many in a million, keeping its state with a probability of so many in 100, else drawn anew.
    fn pairs(mut self, seed: u64, density: usize, keep: usize) -> Day {
        let mut random = Random(seed);
        for u in 0..self.badges {
            for v in u + 1..self.badges {
                let mut met = random.below(1_000_000) < density;
                for t in 0..self.ticks {
                    if t > 0 && random.below(100) >= keep {
                        met = random.below(1_000_000) < density;
                    }
                    if met {
                        self.meet(t, u, v);
                    }
                }
            }
        }
        self
    }

    /// In tick t each badge with the one that makes the sum 2t + 1 with it, counted round their number.
    fn other_pairs(mut self) -> Day {
        for t in 0..self.ticks {
            for u in 0..self.badges {
                let v = (2 * t + 1 + self.badges - u) % self.badges;
                if u < v {
                    self.meet(t, u, v);
                }
            }
        }
        self
    }

    /// Teams of 6 to 10 that meet for 6 to 30 ticks, overlapping.
    fn teams(mut self, seed: u64) -> Day {
        let mut random = Random(seed);
        for _ in 0..60 {
            let size = 6 + random.below(5);
            let team: Vec<usize> = (0..size).map(|_| random.below(self.badges)).collect();
            let (first, length) = (random.below(self.ticks), 6 + random.below(25));
            for t in first..self.ticks.min(first + length) {
                for &u in &team {
                    for &v in team.iter().filter(|&&v| v != u) {
                        self.meet(t, u, v);
                    }
                }
            }
        }
        self
    }
}
