//! What holds of the trace of any day by its words alone, whoever made it: that it is of chains, and misses none; and the traces of logs.

use crate::model::{Day, log_bytes};
use crate::support::days::{about_whole_words, day_by, log_of, meet_some, random_day};
use crate::support::handed::Handed;
use crate::support::logs::random_log;
use crate::support::random::Random;
use crate::support::teams::random_teams;

/// The trace of a day from an index at a start, as the call gives it, beside the words that it is of.
struct Traced<'a> {
    words: &'a [u64],
    n: usize,
    ticks: usize,
    index: usize,
    start: usize,
    bytes: Vec<u8>,
}

impl Traced<'_> {
    fn of(words: &[u64], n: usize, index: usize, start: usize) -> Traced<'_> {
        let (ticks, mut bytes) = (words.len() / (2 * n), vec![0; 2 * n]);
        assert_eq!(ward::trace(words, n, ticks, index, start, &mut bytes), Ok(2 * n));
        Traced { words, n, ticks, index, start, bytes }
    }

    fn tick(&self, u: usize) -> usize {
        self.bytes[u] as usize
    }

    fn source(&self, u: usize) -> usize {
        self.bytes[self.n + u] as usize
    }

    fn reached(&self) -> &[u8] {
        &self.bytes[..self.n]
    }

    fn met(&self, t: usize, u: usize, v: usize) -> bool {
        self.words[2 * (t * self.n + u) + v / 64] >> (v % 64) & 1 == 1
    }

    fn passes_on(&self, u: usize, t: usize) -> bool {
        if u == self.index { self.start <= t } else { self.tick(u) < t }
    }

    /// The sources of a reached badge, followed back, are a chain to the index: contacts, in strictly falling ticks, down to the start or a later
    /// one. Gives how many.
    fn follow_back(&self, mut u: usize) -> usize {
        let (mut contacts, mut after) = (0, self.ticks);
        while u != self.index {
            let (t, v) = (self.tick(u), self.source(u));
            assert!(self.start <= t && t < after && self.met(t, u, v));
            (u, after, contacts) = (v, t, contacts + 1);
        }
        contacts
    }

    /// Whoever is in contact with a badge that passes on is reached in that tick or sooner; and where it is in that tick, by that badge or a smaller
    /// one.
    fn nobody_is_missed(&self) {
        for t in self.start..self.ticks {
            for u in (0..self.n).filter(|u| *u != self.index) {
                let mut sources = (0..self.n).filter(|&v| self.met(t, u, v) && self.passes_on(v, t));
                assert!(sources.all(|v| self.tick(u) < t || self.tick(u) == t && self.source(u) <= v));
            }
        }
    }

    /// All that is promised of a trace. Gives how many contacts the longest chain has.
    fn keeps_its_promise(&self) -> usize {
        assert_eq!((self.tick(self.index), self.source(self.index)), (self.start, 255));
        let (reached, others): (Vec<_>, Vec<_>) = (0..self.n).partition(|&u| self.tick(u) != 255);
        assert!(others.iter().all(|&u| self.source(u) == 255));
        self.nobody_is_missed();
        reached.iter().map(|&u| self.follow_back(u)).max().expect("the index")
    }
}

/// A day of so many contacts, each of one tick.
fn few_contacts(random: &mut Random, n: usize, ticks: usize, count: usize) -> Day {
    let mut day = Day::empty(n, ticks);
    meet_some(random, &mut day, count);
    day
}

/// A day of few contacts, of pairs that meet by chance, or of teams.
fn any_day(random: &mut Random, n: usize, ticks: usize) -> Day {
    match random.below(4) {
        0 => random_teams(random, n, ticks),
        1 => {
            let (density, keep) = (random.below(101), random.below(101));
            random_day(random, n, ticks, density, keep)
        }
        _ => {
            let count = random.below(3 * n);
            few_contacts(random, n, ticks, count)
        }
    }
}

/// From every badge at every tick of random days. A badge that is reached from a later start is so from an earlier one, and no later.
#[test]
fn promise_on_random_days() {
    let mut random = Random(111);
    let (mut chains, mut longest) = (0, 0);
    for i in 0..2000 {
        let (n, ticks) = match i % 400 {
            100 => (about_whole_words(&mut random), 1 + random.below(4)),
            0 | 200 | 300 => (1 + random.below(24), 1 + random.below(24)),
            _ => (1 + random.below(9), 1 + random.below(9)),
        };
        let words = any_day(&mut random, n, ticks).words();
        for index in 0..n {
            let traces: Vec<Traced> = (0..ticks).map(|start| Traced::of(&words, n, index, start)).collect();
            for trace in &traces {
                let contacts = trace.keeps_its_promise();
                chains += usize::from(contacts > 2);
                longest = longest.max(contacts);
            }
            for pair in traces.windows(2) {
                assert!(pair[0].reached().iter().zip(pair[1].reached()).all(|(earlier, later)| earlier <= later));
            }
        }
    }
    assert!(chains > 5000 && longest > 6, "{chains}, {longest}");
}

/// With one contact more nobody is reached later; without the contacts before the start all is the same.
#[test]
fn more_contacts_and_fewer() {
    let mut random = Random(112);
    for _ in 0..5000 {
        let (n, ticks) = (2 + random.below(9), 1 + random.below(9));
        let mut day = any_day(&mut random, n, ticks);
        let (index, start) = (random.below(n), random.below(ticks));
        let words = day.words();
        let later = [vec![0; 2 * n * start], words[2 * n * start..].to_vec()].concat();
        let trace = Traced::of(&words, n, index, start);
        assert_eq!(Traced::of(&later, n, index, start).bytes, trace.bytes);
        meet_some(&mut random, &mut day, 1);
        let more = day.words();
        assert!(Traced::of(&more, n, index, start).reached().iter().zip(trace.reached()).all(|(with, without)| with <= without));
    }
}

/// The numbers of the badges exchanged: the ticks are exchanged in the same way.
#[test]
fn badges_exchanged() {
    let mut random = Random(113);
    for _ in 0..5000 {
        let (n, ticks) = (1 + random.below(9), 1 + random.below(9));
        let day = any_day(&mut random, n, ticks);
        let mut other: Vec<usize> = (0..n).collect();
        (0..n).for_each(|k| other.swap(k, random.below(k + 1)));
        let (index, start) = (random.below(n), random.below(ticks));
        let (words, exchanged) = (day.words(), day_by(n, ticks, |t, u, v| day.met(t, other[u], other[v])).words());
        let place = other.iter().position(|u| *u == index).expect("all badges");
        let (trace, moved) = (Traced::of(&words, n, index, start), Traced::of(&exchanged, n, place, start));
        assert!((0..n).all(|u| moved.tick(u) == trace.tick(other[u])));
    }
}

/// The trace of the day that read makes of a log.
pub fn trace_of(log: &[u8], index: usize, start: usize) -> Vec<u8> {
    let mut words = [0; ward::WORDS];
    let day = ward::read(log, &mut words).expect("a good log");
    Traced::of(&words[..2 * day.badges * day.ticks], day.badges, index, start).bytes
}

/// A log, its tidy log, and logs that say the same otherwise: pairs from the other side, and each tick in a record of its own, in any order.
#[test]
fn logs_that_mean_the_same() {
    let mut random = Random(114);
    for _ in 0..2000 {
        let (n, ticks, count) = (2 + random.below(9), 1 + random.below(9), random.below(20));
        let log = random_log(&mut random, n, ticks, count);
        let (mut words, mut tidied) = (vec![0; 2 * n * ticks], vec![0; ward::LOG_BYTES]);
        let size = ward::tidy(&log, &mut words, &mut tidied).expect("a good log");
        let day = day_by(n, ticks, |t, u, v| words[2 * (t * n + u)] >> v & 1 == 1);
        let mut pieces: Vec<[u8; 4]> = day.runs().into_iter().flat_map(|[u, v, first, last]| (first..=last).map(move |t| [v, u, t, t])).collect();
        (0..pieces.len()).for_each(|k| pieces.swap(k, random.below(k + 1)));
        let (index, start) = (random.below(n), random.below(ticks));
        for other in [&tidied[..size], &log_of(&day), &log_bytes(n as u8, ticks as u8, &pieces)] {
            assert_eq!(trace_of(other, index, start), trace_of(&log, index, start));
        }
    }
}

/// The largest days, of few contacts and of many, against the model, and by their words.
#[test]
fn largest_days() {
    let mut random = Random(115);
    for n in [64, 65, 128] {
        let few = [50, 200, 400, 1000].map(|count| few_contacts(&mut random, n, 96, count));
        let by_chance = [(1, 0), (1, 90), (50, 0)].map(|(density, keep)| random_day(&mut random, n, 96, density, keep));
        for day in few.iter().chain(&by_chance).chain([&random_teams(&mut random, n, 96)]) {
            let words = day.words();
            let handed = Handed::new(&words, n, 96);
            for (index, start) in [(0, 0), (random.below(n), random.below(40)), (n - 1, 0)] {
                assert!(handed.trace(index, start, 2 * n).is_ok());
                Traced::of(&words, n, index, start).keeps_its_promise();
            }
        }
    }
}
