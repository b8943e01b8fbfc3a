//! The plan: D1, whose bytes, sums and ends are written by hand; and days on which several cuttings have the greatest sum.

use crate::model::{Cores, full};
use crate::support::d1::{d1, turned};
use crate::support::days::random_day;
use crate::support::handed::Handed;
use crate::support::random::Random;
use crate::support::sets::{random_set, words_of};

/// One part around {0}: score 0, and all four badges.
const D1: &[u8; 32] = b"PH\x04\x03\x01\x01\x00\x00\x00\x00\x00\x00\x00\
    PT\x00\x00\x02\x0f\x00\x00\x00\x00\x00\x00\x00\
    ED\x01\x00\x00\x00";

/// The same of its first two ticks: score 2, and {0,1,2}.
const D1_OF_TWO_TICKS: &[u8; 32] = b"PH\x04\x02\x01\x01\x00\x00\x00\x00\x00\x00\x00\
    PT\x02\x00\x01\x07\x00\x00\x00\x00\x00\x00\x00\
    ED\x01\x00\x00\x00";

/// Two parts around {2}, and the ends 0 and 2, as document 02 has it: score 2 and {0,1,2}, score 1 and {2,3}.
const D1_IN_TWO_PARTS: &[u8; 45] = b"PH\x04\x03\x02\x04\x00\x00\x00\x00\x00\x00\x00\
    PT\x02\x00\x00\x07\x00\x00\x00\x00\x00\x00\x00\
    PT\x01\x01\x02\x0c\x00\x00\x00\x00\x00\x00\x00\
    ED\x02\x00\x00\x00";

/// The records of a plan's parts.
fn parts(plan: &[u8]) -> impl Iterator<Item = &[u8]> {
    plan[13..plan.len() - 6].chunks(13)
}

/// The sum of a plan's scores.
fn sum(plan: &[u8]) -> usize {
    parts(plan).map(|part| part[2] as usize).sum()
}

/// A plan's ends, the last ticks of its parts.
fn ends(plan: &[u8]) -> Vec<usize> {
    parts(plan).map(|part| part[4] as usize).collect()
}

/// A buffer of every length up to 80.
#[test]
fn d1_into_every_buffer() {
    for room in 0..=80 {
        let plan = if room < 32 { Err((9, 0)) } else { Ok(D1.to_vec()) };
        for lent in 24..=26 {
            assert_eq!(d1(lent).plan(0b0001, 1, room), plan);
        }
    }
}

/// Each bit of word 24 turned over, which is after D1's words; and of words 16 and 17, after the words of its first two ticks.
#[test]
fn words_after_the_day() {
    for v in 0..64 {
        assert_eq!(Handed::new(&turned(24, v)[..25], 4, 3).plan(0b0001, 1, 36), Ok(D1.to_vec()));
        for place in [16, 17] {
            assert_eq!(Handed::new(&turned(place, v)[..25], 4, 2).plan(0b0001, 1, 36), Ok(D1_OF_TWO_TICKS.to_vec()));
        }
    }
}

/// The sums for one, two and three parts around every query, from the empty one and {0} to {0,1,2,3}. Document 01 has 1, 3 and 5 around {2}, 0 around
/// {0} in one part, and 2 around {0,3} in three.
const SUMS: [[usize; 3]; 16] = [
    [1, 3, 5],
    [0, 2, 4],
    [0, 2, 4],
    [0, 2, 4],
    [1, 3, 5],
    [0, 2, 4],
    [0, 2, 4],
    [0, 2, 4],
    [1, 2, 3],
    [0, 1, 2],
    [0, 1, 2],
    [0, 1, 2],
    [1, 2, 3],
    [0, 1, 2],
    [0, 1, 2],
    [0, 1, 2],
];

/// Their ends: in two parts the cuts after tick 0 and after tick 1 have the same sum around every query, so that it is the one after tick 0.
const ENDS: [&[usize]; 3] = [&[2], &[0, 2], &[0, 1, 2]];

#[test]
fn all_queries_of_d1() {
    for (query, sums) in SUMS.iter().enumerate() {
        for (i, expected) in sums.iter().enumerate() {
            let plan = d1(24).plan(query as u128, i + 1, 80).expect("a plan");
            assert_eq!((sum(&plan), &ends(&plan)[..]), (*expected, ENDS[i]));
        }
    }
    assert_eq!(d1(24).plan(0b0100, 2, 45), Ok(D1_IN_TWO_PARTS.to_vec()));
    assert_eq!(d1(24).plan(0b0100, 4, 80), Err((14, 0)));
}

/// 0–1 in ticks 0 to 3, 0–2 and 1–2 in tick 2, and 0–2 in tick 4. Around 0 in three parts the ends 0, 3, 4 and 1, 2, 4 and 1, 3, 4 and 2, 3, 4 all
/// have the sum 3: compared from the end, 1, 2, 4 would come first.
#[test]
fn compared_from_the_first_number_on() {
    let words = words_of(&[0b010, 0b001, 0, 0b010, 0b001, 0, 0b110, 0b101, 0b011, 0b010, 0b001, 0, 0b100, 0, 0b001]);
    let plan = Handed::new(&words, 3, 5).plan(0b001, 3, 58).expect("a plan");
    assert_eq!((sum(&plan), ends(&plan)), (3, vec![0, 3, 4]));
}

/// Random days: in most of them several cuttings have the greatest sum, so that the first is not the last, and in some it is not the first compared from
/// the end.
#[test]
fn the_first_of_the_best() {
    let mut random = Random(9);
    let (mut not_last, mut not_from_the_end) = (0, 0);
    for _ in 0..4000 {
        let (n, ticks) = (4 + random.below(4), 7 + random.below(4));
        let day = random_day(&mut random, n, ticks, 70, 50);
        let (query, h) = (random_set(&mut random, 4) & full(n), 3 + random.below(ticks - 4));
        let plan = Handed::new(&day.words(), n, ticks).plan(query, h, 19 + 13 * h).expect("a plan");
        let best = Cores::of(&day, full(n)).all_best(query, h);
        let from_the_end = best.iter().min_by_key(|ends| ends.iter().rev().collect::<Vec<_>>());
        assert_eq!(Some(&ends(&plan)), best.iter().min());
        not_last += usize::from(Some(&ends(&plan)) != best.iter().max());
        not_from_the_end += usize::from(Some(&ends(&plan)) != from_the_end);
    }
    assert!(not_last > 2000 && not_from_the_end > 100, "{not_last}, {not_from_the_end}");
}
