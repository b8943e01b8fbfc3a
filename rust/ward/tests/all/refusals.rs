//! Refusals of core numbers, of the report, of the plan and of the trace, one at a time, and several at once, where the first in the order of judging
//! is given. The numbers are written by hand.

use crate::model::{Least, PLAIN};
use crate::support::d1::{WORDS, turned};
use crate::support::handed::Handed;
use crate::support::seen::all_seen;

const HUGE: usize = usize::MAX;

/// A bit of D1's words that is turned over: its word, and its place there.
type Turned = Option<(usize, usize)>;
const NONE: Turned = None;

/// So many of D1's words, with a bit turned over, as a day of n and T, with these badges under review.
fn broken(lent: usize, bit: Turned, n: usize, ticks: usize, review: u128) -> Handed {
    let words = bit.map_or(WORDS, |(place, v)| turned(place, v));
    Handed::reviewing(&words[..lent], n, ticks, review)
}

/// D1's badges, all and some.
const ALL: u128 = 0b1111;
const SOME: u128 = 0b0110;

/// What cannot be reviewed of D1: no badge, and badges that it does not have, alone and beside others.
const NOT_OF_D1: [u128; 9] = [0, 1 << 4, 1 << 63, 1 << 64, 1 << 127, ALL | 1 << 4, SOME | 1 << 63, ALL | 1 << 64, u128::MAX];

/// What such a set is refused by, where all badges under review would be refused by a number: 10, 8 and 11 are judged before it, all others after it.
fn before_20(number: u8) -> u8 {
    if [10, 8, 11].contains(&number) { number } else { 20 }
}

/// Core numbers: how many words are lent, the bit turned over, n, T, first tick, last tick, how many bytes are lent; the number. One rule is broken.
type NumbersCase = (usize, Turned, usize, usize, usize, usize, usize, u8);

const NUMBERS_ONE_BY_ONE: &[NumbersCase] = &[
    (26, NONE, 0, 3, 0, 1, 4, 10),
    (26, NONE, 129, 3, 0, 1, 4, 10),
    (26, NONE, HUGE, 3, 0, 1, 4, 10),
    (26, NONE, 4, 0, 0, 1, 4, 10),
    (26, NONE, 4, 97, 0, 1, 4, 10),
    (26, NONE, 4, HUGE, 0, 1, 4, 10),
    (23, NONE, 4, 3, 0, 1, 4, 8),
    (12, NONE, 4, 3, 0, 1, 4, 8),
    (0, NONE, 4, 3, 0, 1, 4, 8),
    (26, NONE, 5, 3, 0, 1, 5, 8),
    (26, NONE, 128, 96, 0, 1, 128, 8),
    (26, Some((0, 0)), 4, 3, 0, 1, 4, 11),
    (26, Some((22, 3)), 4, 3, 0, 1, 4, 11),
    (26, Some((0, 4)), 4, 3, 0, 1, 4, 11),
    (26, Some((22, 63)), 4, 3, 0, 1, 4, 11),
    (26, Some((1, 0)), 4, 3, 0, 1, 4, 11),
    (26, Some((5, 2)), 4, 3, 0, 1, 4, 11),
    (26, Some((23, 63)), 4, 3, 0, 1, 4, 11),
    (26, Some((0, 2)), 4, 3, 0, 1, 4, 11),
    (26, Some((4, 0)), 4, 3, 0, 1, 4, 11),
    (26, Some((22, 2)), 4, 3, 0, 1, 4, 11),
    (26, Some((16, 1)), 4, 3, 0, 1, 4, 11),
    (26, NONE, 4, 3, 2, 1, 4, 12),
    (26, NONE, 4, 3, 1, 0, 4, 12),
    (26, NONE, 4, 3, 0, 3, 4, 12),
    (26, NONE, 4, 3, 3, 3, 4, 12),
    (26, NONE, 4, 3, 0, HUGE, 4, 12),
    (26, NONE, 4, 3, HUGE, 2, 4, 12),
    (26, NONE, 4, 3, HUGE, HUGE, 4, 12),
    (26, NONE, 4, 3, 0, 1, 3, 9),
    (26, NONE, 4, 3, 0, 1, 0, 9),
];

/// Two rules are broken, and more.
const NUMBERS_SEVERAL: &[NumbersCase] = &[
    (0, NONE, 129, 3, 0, 1, 4, 10),
    (0, NONE, 4, 97, 0, 1, 4, 10),
    (26, Some((0, 0)), 0, 3, 0, 1, 4, 10),
    (26, NONE, 4, 0, 0, 0, 4, 10),
    (26, NONE, 129, 3, 2, 1, 4, 10),
    (26, NONE, 129, 3, 0, 1, 0, 10),
    (23, Some((0, 0)), 4, 3, 0, 1, 4, 8),
    (23, NONE, 4, 3, 2, 1, 4, 8),
    (23, NONE, 4, 3, 0, HUGE, 4, 8),
    (23, NONE, 4, 3, 0, 1, 3, 8),
    (26, Some((0, 0)), 4, 3, 2, 1, 4, 11),
    (26, Some((22, 3)), 4, 3, 0, 3, 4, 11),
    (26, Some((22, 2)), 4, 3, HUGE, HUGE, 4, 11),
    (26, Some((22, 63)), 4, 3, 0, 1, 0, 11),
    (26, NONE, 4, 3, 2, 1, 3, 12),
    (26, NONE, 4, 3, 0, 3, 0, 12),
    (0, NONE, HUGE, HUGE, HUGE, HUGE, 0, 10),
    (0, Some((0, 0)), 0, 0, 0, 0, 0, 10),
    (23, Some((0, 0)), 4, 3, 2, 1, 4, 8),
    (23, Some((0, 0)), 4, 3, 0, 1, 0, 8),
    (0, NONE, 4, 3, 2, 1, 0, 8),
    (26, Some((0, 2)), 4, 3, 2, 1, 0, 11),
];

#[test]
fn core_numbers() {
    for &(lent, bit, n, ticks, first, last, room, number) in NUMBERS_ONE_BY_ONE.iter().chain(NUMBERS_SEVERAL) {
        let numbers = |review| broken(lent, bit, n, ticks, review).core_numbers(first, last, room);
        for review in [ALL, SOME] {
            assert_eq!(numbers(review), Err((number, 0)));
        }
        for review in NOT_OF_D1 {
            assert_eq!(numbers(review), Err((before_20(number), 0)));
        }
    }
    for review in NOT_OF_D1 {
        assert_eq!(broken(26, NONE, 4, 3, review).core_numbers(0, 1, 4), Err((20, 0)));
    }
    all_seen("core numbers", &[8, 9, 10, 11, 12, 20]);
}

/// Words: how many are lent, the bit turned over, n, T, how many bytes are lent; the number. One rule is broken, then two and more.
const WORDS_REFUSED: &[(usize, Turned, usize, usize, usize, u8)] = &[
    (26, NONE, 0, 3, 80, 10),
    (26, NONE, 129, 3, 80, 10),
    (26, NONE, HUGE, 3, 80, 10),
    (26, NONE, 4, 0, 80, 10),
    (26, NONE, 4, 97, 80, 10),
    (26, NONE, 4, HUGE, 80, 10),
    (23, NONE, 4, 3, 80, 8),
    (12, NONE, 4, 3, 80, 8),
    (0, NONE, 4, 3, 80, 8),
    (26, NONE, 5, 3, 80, 8),
    (26, NONE, 128, 96, 80, 8),
    (26, Some((0, 0)), 4, 3, 80, 11),
    (26, Some((22, 3)), 4, 3, 80, 11),
    (26, Some((0, 4)), 4, 3, 80, 11),
    (26, Some((22, 63)), 4, 3, 80, 11),
    (26, Some((1, 0)), 4, 3, 80, 11),
    (26, Some((5, 2)), 4, 3, 80, 11),
    (26, Some((23, 63)), 4, 3, 80, 11),
    (26, Some((0, 2)), 4, 3, 80, 11),
    (26, Some((4, 0)), 4, 3, 80, 11),
    (26, Some((22, 2)), 4, 3, 80, 11),
    (26, Some((16, 1)), 4, 3, 80, 11),
    (0, NONE, 129, 3, 80, 10),
    (0, NONE, 4, 97, 80, 10),
    (26, Some((0, 0)), 0, 3, 80, 10),
    (26, NONE, 129, 3, 0, 10),
    (23, Some((0, 0)), 4, 3, 80, 8),
    (23, NONE, 4, 3, 9, 8),
    (26, Some((0, 0)), 4, 3, 9, 11),
    (26, Some((22, 63)), 4, 3, 0, 11),
    (0, Some((0, 0)), 0, 0, 0, 10),
    (23, Some((0, 0)), 4, 3, 0, 8),
];

/// Thresholds with one of the three outside its range, on either side, then with all of them.
const OUT_OF_RANGE: &[Least] = &[
    [0, 1, 2],
    [97, 1, 2],
    [HUGE, 1, 2],
    [1, 0, 2],
    [1, 128, 2],
    [1, HUGE, 2],
    [1, 1, 0],
    [1, 1, 1],
    [1, 1, 129],
    [1, 1, HUGE],
    [0, 0, 1],
    [97, 128, 129],
    [HUGE, HUGE, HUGE],
];

#[test]
fn report() {
    for &(lent, bit, n, ticks, room, number) in WORDS_REFUSED {
        for least in OUT_OF_RANGE.iter().chain([&PLAIN, &[96, 127, 128]]) {
            for review in [ALL, SOME].into_iter().chain(NOT_OF_D1) {
                assert_eq!(broken(lent, bit, n, ticks, review).filtered(*least, room), Err((number, 0)));
            }
        }
    }
    for review in [ALL, SOME] {
        let day = broken(26, NONE, 4, 3, review);
        for least in OUT_OF_RANGE {
            for room in [80, 36, 35, 10, 9, 0] {
                assert_eq!(day.filtered(*least, room), Err((17, 0)));
            }
        }
        for (least, room) in [(PLAIN, 22), (PLAIN, 0), ([3, 1, 2], 9), ([1, 1, 4], 9), ([96, 127, 128], 0)] {
            assert_eq!(day.filtered(least, room), Err((9, 0)));
        }
    }
    assert_eq!(broken(26, NONE, 4, 3, ALL).filtered(PLAIN, 35), Err((9, 0)));
    assert_eq!(broken(26, NONE, 4, 3, ALL).filtered([3, 1, 2], 22), Err((9, 0)));
    all_seen("report", &[8, 9, 10, 11, 17]);
}

/// Whatever the thresholds are, and the buffer.
#[test]
fn report_of_what_cannot_be_reviewed() {
    for review in NOT_OF_D1 {
        let day = broken(26, NONE, 4, 3, review);
        for least in OUT_OF_RANGE.iter().chain([&PLAIN, &[96, 127, 128]]) {
            for room in [80, 36, 10, 9, 0] {
                assert_eq!(day.filtered(*least, room), Err((20, 0)));
            }
        }
    }
    all_seen("report", &[20]);
}

/// Plan: how many words are lent, the bit turned over, n, T, query, h, how many bytes are lent; the number. One rule is broken, then two and more.
type PlanCase = (usize, Turned, usize, usize, u128, usize, usize, u8);

const PLAN_REFUSED: &[PlanCase] = &[
    (26, NONE, 4, 3, 1 << 4, 1, 80, 13),
    (26, NONE, 4, 3, 1 << 63, 1, 80, 13),
    (26, NONE, 4, 3, 1 << 64, 1, 80, 13),
    (26, NONE, 4, 3, 1 << 66, 1, 80, 13),
    (26, NONE, 4, 3, 1 << 127, 1, 80, 13),
    (26, NONE, 4, 3, 1 << 0, 0, 80, 14),
    (26, NONE, 4, 3, 1 << 0, 4, 80, 14),
    (26, NONE, 4, 3, 0, 4, 80, 14),
    (26, NONE, 4, 3, 1 << 0, HUGE, 80, 14),
    (26, NONE, 4, 3, 1 << 0, 1, 31, 9),
    (26, NONE, 4, 3, 0, 3, 57, 9),
    (26, NONE, 4, 3, 1 << 0, 1, 0, 9),
    (26, NONE, 129, 3, 1 << 4, 1, 80, 10),
    (26, NONE, 4, 97, 1 << 0, 0, 80, 10),
    (23, NONE, 4, 3, 1 << 4, 1, 80, 8),
    (23, NONE, 4, 3, 1 << 0, 4, 80, 8),
    (26, Some((0, 0)), 4, 3, 1 << 4, 1, 80, 11),
    (26, Some((22, 63)), 4, 3, 1 << 0, 0, 80, 11),
    (26, NONE, 4, 3, 1 << 4, 0, 80, 13),
    (26, NONE, 4, 3, 1 << 63, 4, 80, 13),
    (26, NONE, 4, 3, 1 << 4, 1, 0, 13),
    (26, NONE, 4, 3, 1 << 0, 0, 0, 14),
    (26, NONE, 4, 3, 1 << 0, 4, 0, 14),
    (26, NONE, 4, 3, 1 << 4, HUGE, 0, 13),
    (0, Some((0, 0)), HUGE, HUGE, 1 << 4, HUGE, 0, 10),
];

/// Plan of D1: review, query, h, how many bytes are lent; the number. One rule is broken, then two and more: 20, 13, 21, 14 and 9 are judged in this order.
const REVIEW_REFUSED: &[(u128, u128, usize, usize, u8)] = &[
    (0, 0, 1, 80, 20),
    (1 << 4, 0, 1, 80, 20),
    (ALL | 1 << 63, 0b0010, 1, 80, 20),
    (ALL | 1 << 64, 0b0010, 1, 80, 20),
    (1 << 65, 0b0010, 1, 80, 20),
    (SOME, 0b0001, 1, 80, 21),
    (SOME, 0b1000, 3, 80, 21),
    (SOME, 0b0111, 1, 80, 21),
    (SOME, ALL, 1, 80, 21),
    (1 << 3, 0b0111, 1, 80, 21),
    (SOME, 0, 0, 80, 14),
    (SOME, 0, 4, 80, 14),
    (SOME, SOME, HUGE, 80, 14),
    (SOME, 0, 1, 31, 9),
    (SOME, 0b0100, 3, 57, 9),
    (0, 0b0001, 1, 80, 20),
    (0, 1 << 4, 1, 80, 20),
    (SOME | 1 << 4, 1 << 4, 1, 80, 20),
    (SOME | 1 << 4, 1 << 5, 1, 80, 20),
    (SOME | 1 << 4, 0b0001, 1, 80, 20),
    (0, 0, 0, 80, 20),
    (0, 0, 4, 0, 20),
    (u128::MAX, u128::MAX, HUGE, 0, 20),
    (SOME, 1 << 4, 1, 80, 13),
    (SOME, 0b0001 | 1 << 4, 1, 80, 13),
    (SOME, SOME | 1 << 63, 0, 80, 13),
    (SOME, SOME << 64, 1, 80, 13),
    (SOME, u128::MAX, 4, 0, 13),
    (SOME, 0b0001, 0, 80, 21),
    (SOME, 0b1010, 4, 80, 21),
    (SOME, 0b0001, HUGE, 80, 21),
    (SOME, 0b0001, 1, 31, 21),
    (SOME, 0b1001, 0, 0, 21),
    (SOME, 0, 0, 0, 14),
    (SOME, SOME, 4, 0, 14),
];

#[test]
fn plan() {
    for &(lent, bit, n, ticks, room, number) in WORDS_REFUSED {
        for review in [ALL, SOME].into_iter().chain(NOT_OF_D1) {
            assert_eq!(broken(lent, bit, n, ticks, review).plan(0b0001, 1, room), Err((number, 0)));
        }
    }
    for &(lent, bit, n, ticks, query, parts, room, number) in PLAN_REFUSED {
        assert_eq!(broken(lent, bit, n, ticks, ALL).plan(query, parts, room), Err((number, 0)));
        for review in NOT_OF_D1 {
            assert_eq!(broken(lent, bit, n, ticks, review).plan(query, parts, room), Err((before_20(number), 0)));
        }
    }
    for &(review, query, parts, room, number) in REVIEW_REFUSED {
        assert_eq!(broken(26, NONE, 4, 3, review).plan(query, parts, room), Err((number, 0)));
    }
    all_seen("plan", &[8, 9, 10, 11, 13, 14, 20, 21]);
}

/// Trace of D1: index, start, how many bytes are lent; the number. One rule is broken, then both: 22 and 9 are judged in this order.
const TRACE_REFUSED: &[(usize, usize, usize, u8)] = &[
    (4, 0, 80, 22),
    (4, 2, 8, 22),
    (5, 0, 80, 22),
    (63, 0, 80, 22),
    (64, 0, 80, 22),
    (128, 0, 80, 22),
    (HUGE, 0, 80, 22),
    (0, 3, 80, 22),
    (3, 3, 8, 22),
    (2, 4, 80, 22),
    (0, 95, 80, 22),
    (0, 96, 80, 22),
    (0, HUGE, 80, 22),
    (4, 3, 80, 22),
    (HUGE, HUGE, 80, 22),
    (0, 0, 7, 9),
    (3, 2, 7, 9),
    (0, 2, 4, 9),
    (3, 0, 1, 9),
    (2, 1, 0, 9),
    (4, 0, 7, 22),
    (4, 2, 0, 22),
    (HUGE, 0, 7, 22),
    (0, 3, 7, 22),
    (3, 3, 0, 22),
    (0, HUGE, 4, 22),
    (HUGE, HUGE, 0, 22),
];

/// Words that are refused are so whatever the index and the start are. The last badge and the last tick are no cause, and 2n bytes are enough.
#[test]
fn trace() {
    for &(lent, bit, n, ticks, room, number) in WORDS_REFUSED {
        for (index, start) in [(0, 0), (3, 2), (4, 0), (0, 3), (HUGE, 0), (0, HUGE), (HUGE, HUGE)] {
            assert_eq!(broken(lent, bit, n, ticks, ALL).trace(index, start, room), Err((number, 0)));
        }
    }
    for &(index, start, room, number) in TRACE_REFUSED {
        assert_eq!(broken(26, NONE, 4, 3, ALL).trace(index, start, room), Err((number, 0)));
    }
    for (index, start, room) in [(0, 0, 8), (3, 0, 8), (0, 2, 8), (3, 2, 8), (3, 2, 9), (3, 2, 80)] {
        assert!(broken(24, NONE, 4, 3, ALL).trace(index, start, room).is_ok());
    }
    all_seen("trace", &[8, 9, 10, 11, 22]);
}
