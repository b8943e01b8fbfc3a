//! Badges under review: days whose answers are written by hand or given by a rule; what leaving badges out comes to, on any day; and any sets at all.

use crate::model::{PLAIN, Record, full, plan_bytes, record_size, report_bytes};
use crate::support::d1::WORDS;
use crate::support::days::{about_whole_words, day_by, one_away, random_day};
use crate::support::handed::Handed;
use crate::support::random::Random;
use crate::support::seen::all_seen;
use crate::support::sets::{any_set, random_set, reviewable, words_of};
use crate::support::teams::random_teams;
use crate::thresholds::random_least;

/// D1 under every review: its core numbers on ticks 0 to 1, and its groups. Without badge 3 the three others stay in contact. Without one of these, the
/// two that are left have order 1 on ticks 0 to 1, and are a group unless badges 2 and 3 stay together in all ticks.
const OF_D1: [(u128, [u8; 4], &[Record]); 15] = [
    (0b0001, [0, 0, 0, 0], &[]),
    (0b0010, [0, 0, 0, 0], &[]),
    (0b0011, [1, 1, 0, 0], &[(1, 0, 1, 0b0011)]),
    (0b0100, [0, 0, 0, 0], &[]),
    (0b0101, [1, 0, 1, 0], &[(1, 0, 1, 0b0101)]),
    (0b0110, [0, 1, 1, 0], &[(1, 0, 1, 0b0110)]),
    (0b0111, [2, 2, 2, 0], &[(2, 0, 1, 0b0111)]),
    (0b1000, [0, 0, 0, 0], &[]),
    (0b1001, [0, 0, 0, 0], &[]),
    (0b1010, [0, 0, 0, 0], &[]),
    (0b1011, [1, 1, 0, 0], &[(1, 0, 1, 0b0011)]),
    (0b1100, [0, 0, 1, 1], &[(1, 0, 2, 0b1100)]),
    (0b1101, [1, 0, 1, 1], &[(1, 0, 2, 0b1100)]),
    (0b1110, [0, 1, 1, 1], &[(1, 0, 2, 0b1100)]),
    (0b1111, [2, 2, 2, 1], &[(2, 0, 1, 0b0111), (1, 0, 2, 0b1100)]),
];

#[test]
fn d1_under_every_review() {
    for (review, numbers, groups) in OF_D1 {
        let day = Handed::reviewing(&WORDS, 4, 3, review);
        assert_eq!(day.core_numbers(0, 1, 4), Ok(numbers.to_vec()));
        let report = report_bytes(4, 3, groups);
        assert_eq!(day.report(report.len()), Ok(report.clone()));
        assert_eq!(day.report(report.len() - 1), Err((9, 0)));
    }
}

/// D1 in one part: badges 2 and 3 where both are under review and the query is of them, with score 1; else the reviewed set, with score 0. A query with
/// another badge is refused.
#[test]
fn plans_of_d1_under_every_review() {
    for review in 1..16 {
        let day = Handed::reviewing(&WORDS, 4, 3, review);
        for query in 0..16 {
            let together = review & 0b1100 == 0b1100 && query & 0b0011 == 0;
            let part = if together { (1, 0, 2, 0b1100) } else { (0, 0, 2, review) };
            let plan = if query & !review == 0 { Ok(plan_bytes(4, 3, query, &[part])) } else { Err((21, 0)) };
            assert_eq!(day.plan(query, 1, 32), plan);
        }
    }
    all_seen("plan", &[21]);
}

/// 0–1 in tick 0, and 2–3 in both ticks: over tick 0 all four are a core of order 1, which is no group, since 2–3 lasts longer. Without 2 and 3, and
/// already without one of them, 0–1 is a group: a record that the report of all badges does not have.
#[test]
fn a_group_that_the_others_kept_out() {
    let report = |review| Handed::reviewing(&words_of(&[0b0010, 0b0001, 0b1000, 0b0100, 0, 0, 0b1000, 0b0100]), 4, 2, review).report(23);
    assert_eq!(report(0b1111), Ok(report_bytes(4, 2, &[(1, 0, 1, 0b1100)])));
    for review in [0b0011, 0b0111, 0b1011] {
        assert_eq!(report(review), Ok(report_bytes(4, 2, &[(1, 0, 0, 0b0011)])));
    }
}

/// Two badges that meet a third alone, never each other. With the third they are a group of three; without it no contact is left.
#[test]
fn joined_by_a_badge_that_is_left_out() {
    let day = |review| Handed::reviewing(&words_of(&[0b010, 0b101, 0b010]), 3, 1, review);
    assert_eq!(day(0b111).report(23), Ok(report_bytes(3, 1, &[(1, 0, 0, 0b111)])));
    assert_eq!(day(0b101).report(10), Ok(report_bytes(3, 1, &[])));
    assert_eq!(day(0b101).core_numbers(0, 0, 3), Ok(vec![0, 0, 0]));
    assert_eq!(day(0b101).plan(0b001, 1, 32), Ok(plan_bytes(3, 1, 0b001, &[(0, 0, 0, 0b101)])));
}

/// The core numbers of n badges that all have the same number where they are in a set, and else 0.
fn number_in(n: usize, set: u128, number: u8) -> Vec<u8> {
    (0..n).map(|u| if set >> u & 1 == 1 { number } else { 0 }).collect()
}

/// All in contact: those under review, however many, are one group, whose order is one less than their number.
#[test]
fn all_in_contact() {
    let mut random = Random(91);
    for n in [64, 65, 128] {
        let words = day_by(n, 96, |_, _, _| true).words();
        for (ticks, reviews) in [(1, 100), (2, 50), (96, 2)] {
            for _ in 0..reviews {
                let review = reviewable(&mut random, n);
                let (day, order) = (Handed::reviewing(&words, n, ticks, review), review.count_ones() as usize - 1);
                let groups = if order == 0 { vec![] } else { vec![(order, 0, ticks - 1, review)] };
                assert_eq!(day.core_numbers(0, ticks - 1, n), Ok(number_in(n, review, order as u8)));
                assert_eq!(day.report(31), Ok(report_bytes(n, ticks, &groups)));
                assert_eq!(day.plan(review, 1, 48), Ok(plan_bytes(n, ticks, review, &[(order, 0, ticks - 1, review)])));
            }
        }
    }
}

/// Every even badge meets every odd one all day, and no badge one of its own kind: of the even ones alone there is no contact.
#[test]
fn badges_that_never_meet() {
    for n in [64, 128] {
        let words = day_by(n, 96, |_, u, v| u % 2 != v % 2).words();
        let even: u128 = (0..n).step_by(2).map(|u| 1 << u).sum();
        for ticks in [1, 96] {
            let day = |review| Handed::reviewing(&words, n, ticks, review);
            assert_eq!(day(full(n)).report(31), Ok(report_bytes(n, ticks, &[(n / 2, 0, ticks - 1, full(n))])));
            for review in [even, 1 << (n - 1)] {
                assert_eq!(day(review).core_numbers(0, ticks - 1, n), Ok(vec![0; n]));
                assert_eq!(day(review).report(10), Ok(report_bytes(n, ticks, &[])));
                assert_eq!(day(review).plan(review, 1, 48), Ok(plan_bytes(n, ticks, review, &[(0, 0, ticks - 1, review)])));
            }
        }
    }
}

/// The lower half of 128 badges, and the upper half: each a team of its own, all day, and both together one core of two circles.
#[test]
fn one_word_of_two() {
    let words = day_by(128, 2, |_, u, v| u / 64 == v / 64).words();
    let (low, high) = (full(64), full(64) << 64);
    for (review, groups) in [(low | high, &[(63, 0, 1, low), (63, 0, 1, high)][..]), (low, &[(63, 0, 1, low)]), (high, &[(63, 0, 1, high)])] {
        let day = Handed::reviewing(&words, 128, 2, review);
        let report = report_bytes(128, 2, groups);
        assert_eq!(day.report(report.len()), Ok(report));
        assert_eq!(day.core_numbers(0, 1, 128), Ok(number_in(128, review, 63)));
        for query in [0, 1 << 63, 1 << 64, 1 << 63 | 1 << 64] {
            let plan = if query & !review == 0 { Ok(plan_bytes(128, 2, query, &[(63, 0, 1, review)])) } else { Err((21, 0)) };
            assert_eq!(day.plan(query, 1, 48), plan);
        }
    }
}

/// One badge away in each tick, of all n, and the badges 0 to 31 under review, or of 128 those from 48 to 79: on a span those stay in contact that
/// are never away. Where they are two or more, there is a core, and it is maximal if each tick that the span can grow by takes another of them away.
#[test]
fn one_badge_away_in_each_tick() {
    for (n, review) in [(64, full(32)), (128, full(32)), (128, full(32) << 48)] {
        one_away_among(n, review);
    }
}

fn one_away_among(n: usize, review: u128) {
    let stay = |first: usize, last| (first..=last).fold(review, |set, t| set & !(1 << (t % n)));
    let grows = |first, last| first > 0 && stay(first - 1, last) == stay(first, last) || last < 95 && stay(first, last + 1) == stay(first, last);
    let spans = (0..96).flat_map(|first| (first..96).map(move |last| (first, last)));
    let groups: Vec<Record> = spans
        .filter(|&(first, last)| stay(first, last).count_ones() >= 2 && !grows(first, last))
        .map(|(first, last)| (stay(first, last).count_ones() as usize - 1, first, last, stay(first, last)))
        .collect();
    let report = report_bytes(n, 96, &groups);
    assert_eq!(Handed::reviewing(&one_away(n).words(), n, 96, review).report(report.len()), Ok(report));
}

/// The set of all n badges, of every n; and more badges than any day has.
#[test]
fn all_badges() {
    for n in 0..=128 {
        assert_eq!(ward::all_badges(n), full(n));
    }
    for n in [129, 192, 256, 1 << 32, (1 << 32) + 1, usize::MAX] {
        assert_eq!(ward::all_badges(n), u128::MAX);
    }
}

/// Each of 128 badges, alone and beside all n, on a day of n badges: under review, it is refused just where it is n or more. So is no badge. As a
/// query it is refused just there, too.
#[test]
fn every_badge_of_every_day() {
    for n in 1..=128 {
        let number = |review| {
            let day = Handed::reviewing(&vec![0; 4 * n], n, 2, review);
            let answers = [day.core_numbers(0, 1, n), day.report(10), day.plan(0, 1, 48)];
            let [numbers, report, plan] = answers.map(|answer| answer.map_or_else(|refusal| refusal.0, |_| 0));
            assert!(numbers == report && report == plan, "{review:b}");
            numbers
        };
        let day = Handed::new(&vec![0; 4 * n], n, 2);
        for u in 0..128 {
            assert_eq!(day.plan(1 << u, 1, 48).map_or_else(|refusal| refusal.0, |_| 0), if u < n { 0 } else { 13 });
            let expected = if u < n { 0 } else { 20 };
            assert_eq!(number(1 << u), expected);
            assert_eq!(number(full(n) | 1 << u), expected);
        }
        assert_eq!(number(0), 20);
    }
}

/// The words of a day without the contacts of the badges that are not under review.
fn without_the_others(words: &[u64], n: usize, review: u128) -> Vec<u64> {
    let halves = [review as u64, (review >> 64) as u64];
    let row = |(place, word): (usize, &u64)| if review >> (place / 2 % n) & 1 == 1 { word & halves[place % 2] } else { 0 };
    words.iter().enumerate().map(row).collect()
}

/// A plan of all n badges, with a set for the members of its parts of score 0, which are all n.
fn showing(mut plan: Vec<u8>, n: usize, set: u128) -> Vec<u8> {
    let (size, end) = (record_size(n), plan.len() - 6);
    for part in plan[size..end].chunks_mut(size).filter(|part| part[2] == 0) {
        assert_eq!(part[5..], full(n).to_le_bytes()[..size - 5]);
        part[5..].copy_from_slice(&set.to_le_bytes()[..size - 5]);
    }
    plan
}

/// To leave badges out is to clear their contacts: with them out of the review, the core numbers and the report are those of the day without these contacts
/// and with all n badges under review. So is the plan, but for the members at score 0.
fn compare_left_out(random: &mut Random, words: &[u64], n: usize, ticks: usize) {
    let review = reviewable(random, n);
    let (left_out, cleared) = (Handed::reviewing(words, n, ticks, review), Handed::new(&without_the_others(words, n, review), n, ticks));
    let ends = [random.below(ticks), random.below(ticks)];
    let (first, last) = (ends[0].min(ends[1]), ends[0].max(ends[1]));
    assert_eq!(left_out.core_numbers(first, last, n), cleared.core_numbers(first, last, n));
    let room = ward::report_bytes(n, ticks);
    for least in [PLAIN, random_least(random, n, ticks)] {
        assert_eq!(left_out.filtered(least, room), cleared.filtered(least, room));
    }
    let (query, parts) = (random_set(random, 4) & review, 1 + random.below(ticks));
    let plan = cleared.plan(query, parts, ward::PLAN_BYTES).expect("a plan");
    assert_eq!(left_out.plan(query, parts, ward::PLAN_BYTES), Ok(showing(plan, n, review)));
}

#[test]
fn left_out_of_random_days() {
    let mut random = Random(92);
    for i in 0..2000 {
        let (n, ticks) = match i % 100 {
            0 => (1 + random.below(24), 1 + random.below(24)),
            20 | 40 | 60 | 80 => (about_whole_words(&mut random), 1 + random.below(6)),
            _ => (1 + random.below(9), 1 + random.below(9)),
        };
        let (density, keep) = (random.below(101), random.below(101));
        let day = if random.below(2) == 0 { random_day(&mut random, n, ticks, density, keep) } else { random_teams(&mut random, n, ticks) };
        compare_left_out(&mut random, &day.words(), n, ticks);
    }
    all_seen("report", &[17]);
}

#[test]
fn left_out_of_the_largest_days() {
    let mut random = Random(93);
    for (n, density, keep) in [(64, 5, 80), (64, 50, 50), (64, 90, 80), (128, 5, 80), (128, 90, 80)] {
        let words = random_day(&mut random, n, 96, density, keep).words();
        compare_left_out(&mut random, &words, n, 96);
    }
}

/// A number, mostly small, sometimes any.
pub fn any_number(random: &mut Random) -> usize {
    if random.below(16) == 0 { random.next() as usize >> random.below(64) } else { 1 + random.below(6) }
}

/// Any sets, sizes and other numbers, with words that are random, or all 0.
#[test]
fn anything_at_all() {
    let mut random = Random(94);
    for _ in 0..40_000 {
        let (n, ticks, clear) = (any_number(&mut random), any_number(&mut random), random.below(4) != 0);
        let words: Vec<u64> = (0..random.below(120)).map(|_| if clear { 0 } else { random.next() }).collect();
        let [review, query] = [0, 1].map(|_| any_set(&mut random) >> random.below(128));
        let day = Handed::reviewing(&words, n, ticks, review);
        let (first, last, parts) = (random.below(8), any_number(&mut random), any_number(&mut random));
        _ = day.core_numbers(first, last, random.below(10));
        _ = day.filtered([any_number(&mut random), any_number(&mut random), any_number(&mut random)], random.below(20));
        _ = day.plan(query, parts, random.below(120));
    }
    all_seen("core numbers", &[8, 9, 10, 11, 12, 20]);
    all_seen("report", &[8, 9, 10, 11, 17, 20]);
    all_seen("plan", &[8, 9, 10, 11, 13, 14, 20, 21]);
}
