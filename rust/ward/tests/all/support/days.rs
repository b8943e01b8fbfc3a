//! Days: random ones, and the largest.

use super::random::Random;
use crate::model::{self, Day, Record, full};

/// A day in which each pair meets in each tick with a probability of so many in 100, and keeps its state with a probability of so many.
pub fn random_day(random: &mut Random, n: usize, ticks: usize, density: usize, keep: usize) -> Day {
    let mut day = Day::empty(n, ticks);
    for u in 0..n {
        for v in u + 1..n {
            let mut met = random.below(100) < density;
            for t in 0..ticks {
                if random.below(100) >= keep {
                    met = random.below(100) < density;
                }
                if met {
                    day.meet(t, u, v);
                }
            }
        }
    }
    day
}

/// Puts pairs in contact by chance, so many times in one tick each; some may be the same.
pub fn meet_some(random: &mut Random, day: &mut Day, count: usize) {
    for _ in 0..if day.n < 2 { 0 } else { count } {
        let u = random.below(day.n);
        day.meet(random.below(day.ticks), u, (u + 1 + random.below(day.n - 1)) % day.n);
    }
}

/// A number of badges near those that one word and two words hold: 60 to 70, or 120 to 128.
pub fn about_whole_words(random: &mut Random) -> usize {
    if random.below(2) == 0 { 60 + random.below(11) } else { 120 + random.below(9) }
}

/// A day of n badges in which a pair is in contact in a tick, or is not, by a rule on the tick, the smaller badge and the larger.
pub fn day_by(n: usize, ticks: usize, met: impl Fn(usize, usize, usize) -> bool) -> Day {
    let mut day = Day::empty(n, ticks);
    for t in 0..ticks {
        for u in 0..n {
            for v in u + 1..n {
                if met(t, u, v) {
                    day.meet(t, u, v);
                }
            }
        }
    }
    day
}

/// n badges, 64 or more, and 96 ticks, with one badge away from all others in each tick: badge t mod n in tick t.
pub fn one_away(n: usize) -> Day {
    day_by(n, 96, |t, u, v| u != t % n && v != t % n)
}

/// Its highest core on a span. In a span of L ticks, L below n, L badges are away; the others stay in contact, and make a core of order n - 1 - L
/// where L is at most n - 2. On a longer span no two stay: order 0, and all badges.
pub fn core_with_one_away(n: usize, first: usize, last: usize) -> Record {
    let size = last - first + 1;
    if size > n - 2 {
        return (0, first, last, full(n));
    }
    let away: u128 = (first..=last).map(|t| 1 << (t % n)).sum();
    (n - 1 - size, first, last, full(n) & !away)
}

/// Runs of one tick each, none of them touching, of n badges, 64 or more, in 96 ticks: tick, smaller badge, larger badge. A pair has 48, one after
/// the other, and n - 8 pairs have the same smaller badge.
pub fn runs_by_pair(n: usize) -> impl Iterator<Item = (usize, usize, usize)> {
    (0..20000).map(|run| (run, run / 48)).map(move |(run, pair)| (run % 48 * 2, pair / (n - 8), 8 + pair % (n - 8)))
}

/// The same of all pairs, tick by tick.
pub fn runs_by_tick(n: usize) -> impl Iterator<Item = (usize, usize, usize)> {
    (0..96).step_by(2).flat_map(move |t| (0..n).flat_map(move |u| (u + 1..n).map(move |v| (t, u, v))))
}

/// The words of a day of n badges and 96 ticks that has just these runs.
pub fn words_of_runs(n: usize, runs: impl Iterator<Item = (usize, usize, usize)>) -> Vec<u64> {
    let mut day = Day::empty(n, 96);
    for (t, u, v) in runs {
        day.meet(t, u, v);
    }
    day.words()
}

/// 64 badges and 96 ticks, with badge t away from all others in tick t, for each t up to 63.
pub fn away_once() -> Day {
    day_by(64, 96, |t, u, v| u != t && v != t)
}

/// The order of its group on a span from f to l; 0 where there is no group. Badges f to l are away at some time, and the others are in contact
/// throughout.
///
/// Where l is at most 62, 63 - (l - f) badges stay and make a core of order 62 - (l - f). A longer span has a smaller order, so there is a group
/// wherever the order is 1 or more: 2,015 of them. Where l is 63 or more and f at most 63, the f badges below f stay, whatever l is, and make a core
/// of order f - 1. So there is a group only with l 95, the longest such span, and where f is 2 or more: 62 of them. From tick 64 on nobody is away:
/// one group of order 63, on 64 to 95. That makes 2,078 in all.
fn order_with_away_once(first: usize, last: usize) -> usize {
    if last < 63 {
        62 - (last - first)
    } else if last == 95 && (2..=64).contains(&first) {
        first - 1
    } else {
        0
    }
}

/// Its groups. Their members are the badges below the first tick's number and those above the last tick's.
pub fn groups_with_away_once() -> Vec<Record> {
    let spans = (0..96).flat_map(|first| (first..96).map(move |last| (first, last)));
    let group = |(first, last): (usize, usize)| {
        let members = (0..64).filter(|v| *v < first || *v > last).map(|v| 1 << v).sum();
        (order_with_away_once(first, last), first, last, members)
    };
    spans.map(group).filter(|group| group.0 > 0).collect()
}

/// 128 badges, from tick 10 on in contact with all others but the one before, the one after and the one that is 64 away, counted round: 7,936 pairs.
pub fn all_but_three(ticks: usize) -> Day {
    day_by(128, ticks, |t, u, v| t >= 10 && ![1, 64, 127].contains(&(v - u)))
}

/// A log of a day, the pairs in either order by turns.
pub fn log_of(day: &Day) -> Vec<u8> {
    let turn = |(k, [a, b, first, last]): (usize, [u8; 4])| if k % 2 == 0 { [a, b, first, last] } else { [b, a, first, last] };
    model::log_bytes(day.n as u8, day.ticks as u8, &day.runs().into_iter().enumerate().map(turn).collect::<Vec<_>>())
}
