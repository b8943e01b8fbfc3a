//! The report under thresholds: days whose answers are written by hand or given by a rule, and what is kept of the plain report of any day.

use crate::model::{Least, PLAIN, RANGES, Record, full, record_size, report_bytes};
use crate::reports::D1;
use crate::support::d1::d1;
use crate::support::days::{about_whole_words, day_by, one_away, random_day};
use crate::support::handed::Handed;
use crate::support::random::Random;
use crate::support::seen::all_seen;
use crate::support::sets::words_of;

/// D1's group of order 2 lasts two ticks and has three members, that of order 1 three ticks and two. On ticks 0 to 1 all four badges are a core of order 1:
/// it is no group, even where thresholds leave out the one that exceeds it.
const OF_D1: &[(Least, &[u8])] = &[
    ([1, 1, 2], D1),
    ([2, 1, 2], D1),
    ([3, 1, 2], LONGER),
    ([4, 1, 2], EMPTY),
    ([1, 2, 2], LARGER),
    ([1, 3, 2], EMPTY),
    ([1, 1, 3], LARGER),
    ([1, 1, 4], EMPTY),
    ([2, 2, 3], LARGER),
    ([3, 2, 2], EMPTY),
    ([3, 1, 3], EMPTY),
    ([96, 127, 128], EMPTY),
];

const LONGER: &[u8] = b"RH\x04\x03GR\x01\x00\x02\x0c\x00\x00\x00\x00\x00\x00\x00ED\x01\x00\x00\x00";
const LARGER: &[u8] = b"RH\x04\x03GR\x02\x00\x01\x07\x00\x00\x00\x00\x00\x00\x00ED\x01\x00\x00\x00";
const EMPTY: &[u8] = b"RH\x04\x03ED\x00\x00\x00\x00";

/// A buffer of every length up to 80: 9 is judged by what is kept.
#[test]
fn d1_into_every_buffer() {
    for &(least, report) in OF_D1 {
        for room in 0..=80 {
            let expected = if room < report.len() { Err((9, 0)) } else { Ok(report.to_vec()) };
            assert_eq!(d1(24 + room % 3).filtered(least, room), expected, "{least:?}");
        }
    }
}

/// Each of the three with each value up to 260, and with the largest ones, the others being the least or the most allowed: of D1, and of one badge in
/// one tick, and of 128. The ranges are the same.
#[test]
fn every_value() {
    let days = [d1(24), Handed::new(&[0, 0], 1, 1), Handed::new(&[0; 256], 128, 1)];
    for i in 0..3 {
        for value in (0..=260).chain([1 << 8, 1 << 32, (1 << 32) + 2, 1 << 63, usize::MAX]) {
            let number = if value < [1, 1, 2][i] || value > [96, 127, 128][i] { 17 } else { 0 };
            for mut least in [PLAIN, [96, 127, 128]] {
                least[i] = value;
                for day in &days {
                    assert_eq!(day.filtered(least, 36).map_or_else(|refusal| refusal.0, |_| 0), number, "{least:?}");
                }
            }
        }
    }
    all_seen("report", &[17]);
}

/// Three badges, of which two are in contact with the third alone, in one tick: a group of order 1 has more than two members.
#[test]
fn more_members_than_the_order_asks() {
    let day = Handed::new(&words_of(&[0b010, 0b101, 0b010]), 3, 1);
    let report = |groups: &[Record]| Ok(report_bytes(3, 1, groups));
    assert_eq!(day.filtered([1, 1, 3], 23), report(&[(1, 0, 0, 0b111)]));
    assert_eq!(day.filtered([1, 1, 4], 23), report(&[]));
    assert_eq!(day.filtered([1, 2, 3], 23), report(&[]));
}

/// All in contact all day: one group, on T ticks, of order n - 1, with n members. It just meets thresholds of that much, and not one that is larger by one.
#[test]
fn just_met_and_just_not() {
    for (n, ticks) in [(2, 1), (3, 2), (63, 95), (64, 96), (65, 3), (127, 95), (128, 96)] {
        let day = Handed::new(&day_by(n, ticks, |_, _, _| true).words(), n, ticks);
        let has = [ticks, n - 1, n];
        let room = 10 + record_size(n);
        assert_eq!(day.filtered(has, room), Ok(report_bytes(n, ticks, &[(n - 1, 0, ticks - 1, full(n))])));
        assert_eq!(day.filtered(has, room - 1), Err((9, 0)));
        for i in 0..3 {
            let mut least = has;
            least[i] += 1;
            let nothing = if RANGES[i].contains(&least[i]) { Ok(report_bytes(n, ticks, &[])) } else { Err((17, 0)) };
            assert_eq!(day.filtered(least, 10), nothing, "{least:?}");
        }
    }
}

/// One badge away in each tick: each span of L ticks, L up to 62, has a group of order 63 - L with 64 - L members, and there are 97 - L such spans.
#[test]
fn one_badge_away_in_each_tick() {
    let day = Handed::new(&one_away(64).words(), 64, 96);
    for least in [
        PLAIN,
        [4, 2, 3],
        [31, 32, 33],
        [31, 1, 33],
        [31, 1, 34],
        [32, 32, 2],
        [62, 1, 2],
        [63, 1, 2],
        [1, 62, 2],
        [1, 63, 2],
        [1, 1, 63],
        [1, 1, 64],
    ] {
        let [ticks, order, members] = least;
        let groups: usize = (ticks..=62.min(63 - order).min(64 - members)).map(|size| 97 - size).sum();
        let len = 10 + 13 * groups;
        assert_eq!(day.filtered(least, len).map(|report| report.len()), Ok(len), "{least:?}");
        assert_eq!(day.filtered(least, len - 1), Err((9, 0)), "{least:?}");
    }
}

/// The same of 128 badges: each span of L ticks has a group of order 127 - L with 128 - L members.
#[test]
fn one_badge_of_128_away_in_each_tick() {
    let day = Handed::new(&one_away(128).words(), 128, 96);
    for least in [PLAIN, [31, 64, 65], [96, 1, 2], [1, 64, 2], [1, 126, 2], [1, 127, 2], [1, 1, 64], [1, 1, 65], [1, 1, 127], [1, 1, 128]] {
        let [ticks, order, members] = least;
        let groups: usize = (ticks..=96.min(127 - order).min(128 - members)).map(|size| 97 - size).sum();
        let len = 10 + 21 * groups;
        assert_eq!(day.filtered(least, len).map(|report| report.len()), Ok(len), "{least:?}");
        assert_eq!(day.filtered(least, len - 1), Err((9, 0)), "{least:?}");
    }
}

/// Mostly what some groups of a day have and others have not; sometimes the ends of the ranges, and values outside.
pub fn random_least(random: &mut Random, n: usize, ticks: usize) -> Least {
    let usual = [ticks, n, n].map(|size| 1 + size.min(128) / 2);
    std::array::from_fn(|i| match random.below(32) {
        0 => RANGES[i].start() - 1,
        1 => *RANGES[i].end(),
        2 => RANGES[i].end() + 1,
        3 => usize::MAX,
        4..=15 => *RANGES[i].start(),
        _ => RANGES[i].start() + random.below(usual[i]),
    })
}

/// The records of a report, 13 bytes each, or 21.
fn records(report: &[u8]) -> impl Iterator<Item = &[u8]> {
    report[4..report.len() - 6].chunks(record_size(report[2].into()))
}

/// A record of the plain report stands next in the kept one exactly where it meets all three; and the kept one has no other.
fn keeps_those_that_meet([ticks, order, members]: Least, plain: &[u8], kept: &[u8]) {
    let mut rest = records(kept).peekable();
    for record in records(plain) {
        let size: u32 = record[5..].iter().map(|byte| byte.count_ones()).sum();
        let meets = usize::from(record[4] - record[3]) + 1 >= ticks && usize::from(record[2]) >= order && size as usize >= members;
        assert_eq!(rest.next_if_eq(&record).is_some(), meets, "{record:?}");
    }
    assert_eq!(rest.next(), None);
}

/// Into a buffer of the exact length, of one byte less and more, and of one byte less than the plain report, which is enough where a group is left out.
fn compare_kept(random: &mut Random, day: &Handed, plain: &[u8], least: Least) {
    let Ok(kept) = day.filtered(least, plain.len()) else { return };
    keeps_those_that_meet(least, plain, &kept);
    for room in [kept.len() - 1, kept.len(), kept.len() + 1, plain.len() - 1, random.below(kept.len())] {
        assert_eq!(day.filtered(least, room).is_ok(), room >= kept.len());
    }
}

/// Random days, each with 20 thresholds.
#[test]
fn kept_of_random_days() {
    let mut random = Random(71);
    for i in 0..2000 {
        let (n, ticks) = match i % 100 {
            0 => (1 + random.below(24), 1 + random.below(24)),
            25 | 50 | 75 => (about_whole_words(&mut random), 1 + random.below(6)),
            _ => (1 + random.below(9), 1 + random.below(9)),
        };
        let (density, keep) = (random.below(101), random.below(101));
        let day = Handed::new(&random_day(&mut random, n, ticks, density, keep).words(), n, ticks);
        let plain = day.report(ward::report_bytes(n, ticks)).expect("a report");
        for _ in 0..20 {
            let least = random_least(&mut random, n, ticks);
            compare_kept(&mut random, &day, &plain, least);
        }
    }
    all_seen("report", &[9, 17]);
}
