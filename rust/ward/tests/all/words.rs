//! The check of words, by which every call on words begins: 10, 8 and 11.

use crate::model;
use crate::support::d1::{WORDS, turned};
use crate::support::lent::Lent;
use crate::support::logs::random_log;
use crate::support::random::Random;

type Call = fn(&[u64], usize, usize, u128, &mut [u8]) -> Result<usize, ward::Refused>;

const CALLS: [Call; 5] = [
    |words, n, ticks, _, out| ward::write(words, n, ticks, out),
    |words, n, ticks, _, out| ward::trace(words, n, ticks, 0, 0, out),
    |words, n, ticks, review, out| ward::core_numbers(words, n, ticks, review, 0, 0, out),
    |words, n, ticks, review, out| ward::report(words, n, ticks, review, ward::Thresholds::default(), out),
    |words, n, ticks, review, out| ward::plan(words, n, ticks, review, 0, 1, out),
];

/// The number by which the check refuses words that are handed over with n and T, 0 for a day. Every call gives it, with no byte lent and with some,
/// with all badges under review and with none, and so does the model.
fn checked(words: &[u64], n: usize, ticks: usize) -> u8 {
    let number = model::check(words, n, ticks).map_or_else(|refusal| refusal.0, |_| 0);
    let mut lent = Lent::holding(words);
    for call in CALLS {
        for (room, review) in [(0, ward::all_badges(n)), (100, ward::all_badges(n)), (0, 0), (100, 0)] {
            let mut out = Lent::room(room);
            let answer = call(lent.slice(), n, ticks, review, out.slice()).map_err(|refused| (refused.refusal.number(), refused.offset));
            lent.is_unchanged();
            match answer {
                // what comes after the check: nobody under review, too few bytes, too many runs
                Err((20, 0)) => assert_eq!((number, review), (0, 0)),
                Ok(_) | Err((9 | 15, 0)) => assert_eq!(number, 0),
                Err(refusal) => {
                    assert_eq!(refusal, (number, 0));
                    out.is_unchanged();
                }
            }
        }
    }
    number
}

/// D1's words, too few of them, and sizes of every kind.
#[test]
fn sizes() {
    assert_eq!(checked(&WORDS[..24], 4, 3), 0);
    assert_eq!(checked(&WORDS[..23], 4, 3), 8);
    assert_eq!(checked(&WORDS[..12], 4, 3), 8);
    assert_eq!(checked(&[], 4, 3), 8);
    assert_eq!(checked(&[], 64, 96), 8);
    assert_eq!(checked(&[], 128, 96), 8);
    let huge = usize::MAX;
    let good = [(4, 3, 0), (4, 4, 8), (4, 2, 0), (3, 4, 11)];
    let bad = [(0, 3, 10), (129, 3, 10), (256 + 4, 3, 10), (huge, 3, 10), (4, 0, 10), (4, 97, 10), (4, huge, 10), (huge, huge, 10)];
    for (n, ticks, number) in good.into_iter().chain(bad) {
        assert_eq!(checked(&WORDS, n, ticks), number);
    }
    assert_eq!(checked(&[], 0, 0), 10);
}

/// D1 with one word changed: an own bit, a bit of n or more, also in a word for badges from 64 on, a mirror that is missing. Words after the day do
/// not count.
#[test]
fn one_word_changed() {
    let last = 1 << 63;
    let broken =
        [(0, 7), (22, 12), (0, 22), (22, last | 4), (0, 2), (22, 0), (16, 2), (1, 1), (1, 6), (23, last)].map(|(place, word)| (place, word, 11));
    for (place, word, number) in broken.into_iter().chain([(24, 0, 0), (25, last, 0)]) {
        let mut words = WORDS;
        words[place] = word;
        assert_eq!(checked(&words, 4, 3), number);
    }
}

/// Each bit turned over: within D1's twenty-four words that breaks the day, after them it does not.
#[test]
fn one_bit_turned_over() {
    for place in 0..26 {
        for v in 0..64 {
            assert_eq!(checked(&turned(place, v), 4, 3), if place < 24 { 11 } else { 0 });
        }
    }
}

/// Large days: without a contact, with a word too few, with one contact in the last tick, of the first badge and the last, and with its mirror
/// missing, on either side.
#[test]
fn largest_days() {
    for n in [64, 65, 128] {
        let mut words = vec![0; 2 * n * 96];
        let (first, last) = (2 * n * 95, 2 * n * 96 - 2);
        assert_eq!(checked(&words, n, 96), 0);
        assert_eq!(checked(&words[1..], n, 96), 8);
        words[last] = 1;
        assert_eq!(checked(&words, n, 96), 11);
        assert_eq!(checked(&words, n, 95), 0);
        let place = first + (n - 1) / 64;
        words[place] = 1 << ((n - 1) % 64);
        assert_eq!(checked(&words, n, 96), 0);
        words[last] = 0;
        assert_eq!(checked(&words, n, 96), 11);
    }
}

/// Two badges in contact, each in the other's set, or in that of one alone: badges of the lower words, of the upper words, and one of each. A bit of
/// badge n is no day's, also where badge n would be the first of the upper words, and where its mirror would be there.
#[test]
fn pairs_across_words() {
    for n in [64, 65, 66, 127, 128] {
        for (u, v) in [(0, 1), (0, 63), (62, 63), (0, 64), (63, 64), (1, 65), (64, 65), (64, 127), (126, 127), (63, 127)] {
            let set = |words: &mut [u64], u: usize, v: usize| words[2 * (n + u) + v / 64] |= 1 << (v % 64);
            let inside = v < n;
            let mut words = vec![0; 4 * n + 300];
            set(&mut words, u, v);
            assert_eq!(checked(&words, n, 2), if u < n { 11 } else { 0 }, "{u} and {v} of {n}, on one side");
            set(&mut words, v, u);
            assert_eq!(checked(&words, n, 2), if inside || u >= n { 0 } else { 11 }, "{u} and {v} of {n}");
            words[2 * (n + u) + v / 64] = 0;
            assert_eq!(checked(&words, n, 2), if inside { 11 } else { 0 }, "{u} and {v} of {n}, on the other side");
        }
    }
}

/// Each bit of each badge's set in a day of one tick without contacts, which is then no day.
#[test]
fn every_bit_of_every_set() {
    for n in [63, 64, 65, 128] {
        let mut words = vec![0; 2 * n];
        for place in (0..2 * n).filter(|place| place % 9 < 2 || 2 * n - place < 4) {
            for v in 0..64 {
                words[place] = 1 << v;
                assert_eq!(checked(&words, n, 1), 11);
            }
            words[place] = 0;
        }
    }
}

/// The words that read leaves of a log, with others after them: a day. Then at another size, and with a bit turned over, within the day or after it.
#[test]
fn of_random_logs() {
    let mut random = Random(21);
    for _ in 0..500 {
        let (n, ticks) = (1 + random.below(128), 1 + random.below(96));
        let (n, ticks, count) = (1 + random.below(n), 1 + random.below(ticks), random.below(40));
        let log = random_log(&mut random, n, ticks, count);
        let mut words = Lent::room(2 * n * ticks + 50);
        ward::read(&log, words.slice()).expect("a good log");
        let words = words.slice();
        assert_eq!(checked(words, n, ticks), 0);
        checked(words, ticks, n);
        words[random.below(2 * n * ticks + 2)] ^= 1 << random.below(64);
        checked(words, n, ticks);
    }
}
