//! The exposure trace: days whose traces are written by hand or given by a rule, and any numbers at all. 255 is for a badge that is never reached,
//! and for no source.

use crate::chains::trace_of;
use crate::model::Day;
use crate::reviews::any_number;
use crate::support::d1::{MESSY, TIDY, d1, turned};
use crate::support::days::day_by;
use crate::support::handed::Handed;
use crate::support::lent::Lent;
use crate::support::random::Random;
use crate::support::seen::all_seen;
use crate::support::sets::words_of;

/// D1 from every badge at every tick: four ticks, then four sources. From badge 3 at tick 0, for one, badge 2 is reached in tick 0 by badge 3, and
/// badges 0 and 1 in tick 1 by badge 2; in tick 2 badges 2 and 3 alone are in contact.
const OF_D1: [[[u8; 8]; 3]; 4] = [
    [[0, 0, 0, 1, 255, 0, 0, 2], [1, 1, 1, 2, 255, 0, 0, 2], [2, 255, 255, 255, 255, 255, 255, 255]],
    [[0, 0, 0, 1, 1, 255, 1, 2], [1, 1, 1, 2, 1, 255, 1, 2], [255, 2, 255, 255, 255, 255, 255, 255]],
    [[0, 0, 0, 0, 2, 2, 255, 2], [1, 1, 1, 1, 2, 2, 255, 2], [255, 255, 2, 2, 255, 255, 255, 2]],
    [[1, 1, 0, 0, 2, 2, 3, 255], [255, 255, 1, 1, 255, 255, 3, 255], [255, 255, 2, 2, 255, 255, 3, 255]],
];

/// A buffer of every length up to 80.
#[test]
fn d1_into_every_buffer() {
    for (index, traces) in OF_D1.iter().enumerate() {
        for (start, trace) in traces.iter().enumerate() {
            for room in 0..=80 {
                let expected = if room < 8 { Err((9, 0)) } else { Ok(trace.to_vec()) };
                assert_eq!(d1(24 + room % 3).trace(index, start, room), expected);
            }
        }
    }
    all_seen("trace", &[9]);
}

/// D1's two logs.
#[test]
fn logs_of_d1() {
    for (index, traces) in OF_D1.iter().enumerate() {
        for (start, trace) in traces.iter().enumerate() {
            assert_eq!([trace_of(TIDY, index, start), trace_of(MESSY, index, start)], [trace; 2]);
        }
    }
}

/// Each bit of word 24 turned over, which is after D1's words; and of words 16 and 17, after the words of its first two ticks.
#[test]
fn words_after_the_day() {
    for v in 0..64 {
        assert_eq!(Handed::new(&turned(24, v)[..25], 4, 3).trace(3, 0, 8), Ok(OF_D1[3][0].to_vec()));
        for place in [16, 17] {
            assert_eq!(Handed::new(&turned(place, v), 4, 2).trace(3, 0, 8), Ok(OF_D1[3][0].to_vec()));
            assert_eq!(Handed::new(&turned(place, v), 4, 2).trace(0, 1, 8), Ok(vec![1, 1, 1, 255, 255, 0, 0, 255]));
        }
    }
}

/// As index and as start each value up to 260, and large ones: of D1, and of one badge in one tick.
#[test]
fn every_value() {
    for (day, n, ticks) in [(d1(24), 4, 3), (Handed::new(&[0, 0], 1, 1), 1, 1)] {
        for value in (0..=260).chain([1 << 32, (1 << 32) + 2, 1 << 63, usize::MAX - 1, usize::MAX]) {
            let number = |index, start| day.trace(index, start, 8).map_or_else(|refusal| refusal.0, |_| 0);
            assert_eq!(number(value, 0), if value < n { 0 } else { 22 });
            assert_eq!(number(0, value), if value < ticks { 0 } else { 22 });
        }
    }
    all_seen("trace", &[22]);
}

/// Days of every number of badges, and of many numbers of ticks: the last badge and the last tick are taken, and those after them are refused.
#[test]
fn every_size() {
    let words = vec![0; ward::WORDS];
    for n in 1..=128 {
        for ticks in (1..=96).filter(|ticks| [1, 2, 95, 96].contains(ticks) || (ticks + n) % 3 == 0) {
            let number = |index, start| ward::trace(&words, n, ticks, index, start, &mut [0; 256]).map_or_else(|r| r.refusal.number(), |_| 0);
            assert_eq!([number(n - 1, ticks - 1), number(n, ticks - 1), number(n - 1, ticks)], [0, 22, 22]);
        }
    }
}

/// Any sizes, badges, ticks and buffers, with words that are random, or all 0.
#[test]
fn anything_at_all() {
    let mut random = Random(110);
    for _ in 0..40_000 {
        let (n, ticks, clear) = (any_number(&mut random), any_number(&mut random), random.below(4) != 0);
        let words: Vec<u64> = (0..random.below(120)).map(|_| if clear { 0 } else { random.next() }).collect();
        let [index, start] = [0, 1].map(|_| any_number(&mut random).wrapping_sub(1));
        _ = Handed::new(&words, n, ticks).trace(index, start, random.below(16));
    }
    all_seen("trace", &[8, 9, 10, 11, 22]);
}

/// A day of n badges with these pairs in contact, tick by tick, the smaller badge first.
fn meeting(n: usize, ticks: &[&[(usize, usize)]]) -> Handed {
    Handed::new(&day_by(n, ticks.len(), |t, u, v| ticks[t].contains(&(u, v))).words(), n, ticks.len())
}

/// Along a path that is met in rising ticks all are reached, one after the other; in falling ticks nobody beyond the first is. In one tick nobody is,
/// either: a badge does not pass on in the tick in which it is reached.
#[test]
fn rising_and_falling_ticks() {
    let rising: &[&[_]] = &[&[(0, 1)], &[(1, 2)], &[(2, 3)]];
    assert_eq!(meeting(4, rising).trace(0, 0, 8), Ok(vec![0, 0, 1, 2, 255, 0, 1, 2]));
    assert_eq!(meeting(4, rising).trace(3, 0, 8), Ok(vec![255, 255, 2, 0, 255, 255, 3, 255]));
    assert_eq!(meeting(4, rising).trace(1, 0, 8), Ok(vec![0, 0, 1, 2, 1, 255, 1, 2]));
    assert_eq!(meeting(4, rising).trace(1, 1, 8), Ok(vec![255, 1, 1, 2, 255, 255, 1, 2]));
    let falling: &[&[_]] = &[&[(2, 3)], &[(1, 2)], &[(0, 1)]];
    assert_eq!(meeting(4, falling).trace(0, 0, 8), Ok(vec![0, 2, 255, 255, 255, 0, 255, 255]));
    assert_eq!(meeting(4, falling).trace(3, 0, 8), Ok(vec![2, 1, 0, 0, 1, 2, 3, 255]));
    let at_once: &[&[_]] = &[&[(0, 1), (1, 2), (2, 3)]];
    assert_eq!(meeting(4, at_once).trace(0, 0, 8), Ok(vec![0, 0, 255, 255, 255, 0, 255, 255]));
    assert_eq!(meeting(4, at_once).trace(2, 0, 8), Ok(vec![255, 0, 0, 0, 255, 2, 255, 2]));
}

/// Two badges in contact all day, alone and with a third that is in contact with the second all day: it is reached a tick later, if there is one.
#[test]
fn in_contact_all_day() {
    let (pair, three): ([&[_]; 5], [&[_]; 5]) = ([&[(0, 1)]; 5], [&[(0, 1), (1, 2)]; 5]);
    for start in 0..5 {
        let (tick, next) = (start as u8, if start < 4 { [start as u8 + 1, 1] } else { [255, 255] });
        assert_eq!(meeting(2, &pair).trace(0, start, 4), Ok(vec![tick, tick, 255, 0]));
        assert_eq!(meeting(2, &pair).trace(1, start, 4), Ok(vec![tick, tick, 1, 255]));
        assert_eq!(meeting(3, &three).trace(0, start, 6), Ok(vec![tick, tick, next[0], 255, 0, next[1]]));
    }
}

/// Badge 0 could have been reached by two badges in its tick, and the smallest is shown: one of two that badge 3 has reached, one beside badge 3
/// itself, and badge 1 as the index beside one that it has reached.
#[test]
fn the_smallest_of_two_sources() {
    assert_eq!(meeting(4, &[&[(1, 3), (2, 3)], &[(0, 1), (0, 2)]]).trace(3, 0, 8), Ok(vec![1, 0, 0, 0, 1, 3, 3, 255]));
    assert_eq!(meeting(4, &[&[(1, 3)], &[(0, 1), (0, 3)]]).trace(3, 0, 8), Ok(vec![1, 0, 255, 0, 1, 3, 255, 255]));
    assert_eq!(meeting(4, &[&[(1, 3)], &[(0, 1), (0, 3)]]).trace(1, 0, 8), Ok(vec![1, 0, 255, 0, 1, 255, 255, 1]));
}

/// Badge 1 is in contact with badge 0, too, and that does not count: where badge 0 is reached in the same tick, where it is reached later, where it
/// is never reached; and where badge 0 has been reached, but was in contact before that alone.
#[test]
fn smaller_badges_that_are_no_source() {
    let same_tick: &[&[_]] = &[&[(2, 3)], &[(0, 1), (0, 2), (1, 3)]];
    assert_eq!(meeting(4, same_tick).trace(2, 0, 8), Ok(vec![1, 1, 0, 0, 2, 3, 255, 2]));
    let later: &[&[_]] = &[&[(2, 3)], &[(0, 1), (1, 3)], &[(0, 2), (0, 3)]];
    assert_eq!(meeting(4, later).trace(2, 0, 8), Ok(vec![2, 1, 0, 0, 2, 3, 255, 2]));
    let never: &[&[_]] = &[&[(2, 3)], &[(0, 1), (1, 3)]];
    assert_eq!(meeting(4, never).trace(2, 0, 8), Ok(vec![255, 1, 0, 0, 255, 3, 255, 2]));
    let before: &[&[_]] = &[&[(0, 1)], &[(0, 2)], &[(1, 2)]];
    assert_eq!(meeting(3, before).trace(2, 0, 6), Ok(vec![1, 2, 0, 2, 2, 255]));
}

/// The index is in contact with a badge that it has reached before, in the next tick and by way of a third badge: it keeps its start, and shows no
/// source.
#[test]
fn contacts_of_the_index_later() {
    assert_eq!(meeting(3, &[&[(0, 1)], &[(0, 1), (1, 2)], &[(0, 2)]]).trace(0, 0, 6), Ok(vec![0, 0, 1, 255, 0, 1]));
    assert_eq!(meeting(3, &[&[(1, 2)], &[(0, 1), (1, 2)], &[(0, 2)]]).trace(2, 0, 6), Ok(vec![1, 0, 0, 1, 2, 255]));
}

/// The index passes on in its start and in every later tick, and not before. No badge is in contact with itself: words that say so are no day.
#[test]
fn when_the_index_passes_on() {
    let day = || meeting(5, &[&[(0, 1)], &[], &[(0, 2)], &[], &[(0, 3)]]);
    assert_eq!(day().trace(0, 0, 10), Ok(vec![0, 0, 2, 4, 255, 255, 0, 0, 0, 255]));
    assert_eq!(day().trace(0, 1, 10), Ok(vec![1, 255, 2, 4, 255, 255, 255, 0, 0, 255]));
    assert_eq!(day().trace(0, 2, 10), Ok(vec![2, 255, 2, 4, 255, 255, 255, 0, 0, 255]));
    assert_eq!(day().trace(0, 3, 10), Ok(vec![3, 255, 255, 4, 255, 255, 255, 255, 0, 255]));
    assert_eq!(day().trace(0, 4, 10), Ok(vec![4, 255, 255, 4, 255, 255, 255, 255, 0, 255]));
    assert_eq!(Handed::new(&words_of(&[0b11, 0b01]), 2, 1).trace(0, 0, 4), Err((11, 0)));
    assert_eq!(Handed::new(&words_of(&[0b01, 0b00]), 2, 1).trace(0, 0, 4), Err((11, 0)));
}

/// The tick and the source of a badge that is never reached.
const NEVER: (usize, usize) = (255, 255);

/// The numbers of badges of the days below.
const SIZES: [usize; 3] = [64, 65, 128];

/// The traces of a day of 96 ticks have the tick and the source that a rule gives for an index, a start and another badge: from every badge at every
/// 19th tick, and from every 21st badge at every tick. Those from the first badge and the last, at the first tick and the last, are compared with the
/// model, too.
fn by_rule(day: Day, rule: impl Fn(usize, usize, usize) -> (usize, usize)) {
    let (n, words, handed) = (day.n, day.words(), Handed::new(&day.words(), day.n, 96));
    for index in 0..n {
        for start in (0..96).filter(|start| index % 21 == 0 || start % 19 == 0) {
            let badges: Vec<(usize, usize)> = (0..n).map(|u| if u == index { (start, 255) } else { rule(index, start, u) }).collect();
            let trace: Vec<u8> = badges.iter().map(|badge| badge.0 as u8).chain(badges.iter().map(|badge| badge.1 as u8)).collect();
            let mut out = Lent::room(2 * n + 2);
            assert_eq!(ward::trace(&words, n, 96, index, start, out.slice()), Ok(2 * n));
            out.holds(&trace);
            if index % (n - 1) == 0 && start % 95 == 0 {
                assert_eq!(handed.trace(index, start, 2 * n), Ok(trace));
            }
        }
    }
}

/// All in contact: everyone is reached at once, by the index. Nobody in contact: nobody is ever reached.
#[test]
fn all_in_contact_or_nobody() {
    for n in SIZES {
        by_rule(day_by(n, 96, |_, _, _| true), |index, start, _| (start, index));
        by_rule(Day::empty(n, 96), |_, _, _| NEVER);
    }
}

/// A path on which badge t meets badge t + 1 in tick t alone: a badge reaches all after it, one by one, and of those before it the next, in both
/// cases if its contact is not before its start. Badges above 96 meet nobody.
#[test]
fn path_met_in_rising_ticks() {
    for n in SIZES {
        by_rule(day_by(n, 96, |t, u, v| u == t && v == t + 1), |index, start, u| {
            if index < u && start <= index && u <= 96 {
                (u - 1, u - 1)
            } else if u + 1 == index && start <= u && index <= 96 {
                (u, index)
            } else {
                NEVER
            }
        });
    }
}

/// A path on which each badge is in contact with the next all day: one badge more is reached in each tick, on either side.
#[test]
fn path_in_contact_all_day() {
    for n in SIZES {
        by_rule(day_by(n, 96, |_, u, v| u + 1 == v), |index, start, u| {
            let (tick, source) = if index < u { (start + u - index - 1, u - 1) } else { (start + index - u - 1, u + 1) };
            if tick < 96 { (tick, source) } else { NEVER }
        });
    }
}

/// The last badge with another badge in each tick, badge t mod n - 1 in tick t: whoever is reached is so by the last, or is the last.
#[test]
fn another_partner_in_each_tick() {
    for n in SIZES {
        let last = n - 1;
        let meets = |u: usize, from: usize| (from..96).find(|t| t % last == u);
        by_rule(day_by(n, 96, |t, u, v| (u, v) == (t % last, last)), |index, start, u| {
            if index == last {
                meets(u, start).map_or(NEVER, |t| (t, last))
            } else if u == last {
                meets(index, start).map_or(NEVER, |t| (t, index))
            } else {
                meets(index, start).and_then(|t| meets(u, t + 1)).map_or(NEVER, |t| (t, last))
            }
        });
    }
}

/// Every even badge meets every odd one all day, and no badge one of its own kind: these are reached in the second tick, by the smallest of the other
/// kind.
#[test]
fn even_badges_and_odd_ones() {
    for n in SIZES {
        by_rule(day_by(n, 96, |_, u, v| u % 2 != v % 2), |index, start, u| {
            if u % 2 != index % 2 {
                (start, index)
            } else if start < 95 {
                (start + 1, 1 - u % 2)
            } else {
                NEVER
            }
        });
    }
}

/// The lower half of 128 badges and the upper half, each in contact within all day, and badges 63 and 64 in every tick from 5 on: beyond those, the
/// other half is reached in the tick after that.
#[test]
fn one_bridge_between_halves() {
    by_rule(day_by(128, 96, |t, u, v| u / 64 == v / 64 || (u, v) == (63, 64) && t >= 5), |index, start, u| {
        let ends = [63, 64][index / 64];
        if index / 64 == u / 64 {
            return (start, index);
        }
        // when the end of the bridge on the index's side passes on, and who crosses
        let from = if index == ends { start.max(5) } else { (start + 1).max(5) };
        let (tick, source) = if u == 127 - ends { (from, ends) } else { (from + 1, 127 - ends) };
        if tick < 96 { (tick, source) } else { NEVER }
    });
}
