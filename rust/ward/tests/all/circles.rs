//! Circles: the groups of a core whose members fall apart. Days whose answers are written by hand or given by a rule; what holds of the circles of
//! any day, as the report's bytes show it; and random days of teams.

use crate::model::{Day, Least, PLAIN, Record, full, judge, plan_bytes, record_size, report_bytes};
use crate::reports::D1;
use crate::support::calls::read;
use crate::support::d1::d1;
use crate::support::days::about_whole_words;
use crate::support::digits::{MOST_LISTED, MOST_PAIRS, ONE_MORE, changing_groups, changing_pairs, digit_groups, digit_log, wide_groups, wide_log};
use crate::support::digits::{team_day, team_groups};
use crate::support::handed::Handed;
use crate::support::random::Random;
use crate::support::seen::all_seen;
use crate::support::sets::{reviewable, words_of};
use crate::support::teams::Shape::*;
use crate::support::teams::{Shape, gather, random_teams};
use crate::thresholds::random_least;

/// A day of teams: shape, members, first tick, last tick.
fn day_of(n: usize, ticks: usize, teams: &[(Shape, &[usize], usize, usize)]) -> Day {
    let mut day = Day::empty(n, ticks);
    for &(shape, team, first, last) in teams {
        gather(&mut day, shape, team, first..=last);
    }
    day
}

/// The report of a day under a review and thresholds has just these groups: in a buffer of the exact length, of one byte more, and of as much as any
/// report of such a day takes; one byte less is refused, a record less, and none at all.
fn shows_among(day: &Day, review: u128, least: Least, groups: &[Record]) {
    let (handed, report) = (Handed::reviewing(&day.words(), day.n, day.ticks, review), report_bytes(day.n, day.ticks, groups));
    assert_eq!(report.len(), 10 + record_size(day.n) * groups.len());
    for room in [report.len(), report.len() + 1, ward::report_bytes(day.n, day.ticks)] {
        assert_eq!(handed.filtered(least, room), Ok(report.clone()), "{least:?}");
    }
    for room in [report.len() - 1, report.len().saturating_sub(record_size(day.n)), 0] {
        assert_eq!(handed.filtered(least, room), Err((9, 0)), "{least:?}");
    }
}

/// The plain report of all badges.
fn shows(day: &Day, groups: &[Record]) {
    shows_among(day, full(day.n), PLAIN, groups);
}

/// Two triangles that never met, in two ticks.
const TWO_TRIANGLES: &[u8; 36] = b"RH\x06\x02\
    GR\x02\x00\x01\x07\x00\x00\x00\x00\x00\x00\x00\
    GR\x02\x00\x01\x38\x00\x00\x00\x00\x00\x00\x00\
    ED\x02\x00\x00\x00";

/// A buffer of every length up to 80: room for the core in one record is not enough.
#[test]
fn two_triangles_into_every_buffer() {
    let day = Handed::new(&words_of(&[0b000110, 0b000101, 0b000011, 0b110000, 0b101000, 0b011000].repeat(2)), 6, 2);
    for room in 0..=80 {
        assert_eq!(day.report(room), if room < 36 { Err((9, 0)) } else { Ok(TWO_TRIANGLES.to_vec()) });
    }
}

/// Two triangles that never met: two groups of three, of every least number of members up to that, and none beyond. In any arrangement the one with
/// badge 0 stands first.
#[test]
fn two_triangles() {
    for [a, b] in [[[0, 1, 2], [3, 4, 5]], [[3, 4, 5], [0, 1, 2]], [[0, 2, 4], [1, 3, 5]], [[5, 0, 3], [4, 2, 1]], [[1, 2, 3], [0, 4, 5]]] {
        let day = day_of(6, 3, &[(Clique, &a, 0, 2), (Clique, &b, 0, 2)]);
        let mut sets = [a, b].map(|team| team.iter().map(|u| 1 << u).sum());
        sets.sort_by_key(|set: &u128| set.trailing_zeros());
        let both = sets.map(|set| (2, 0, 2, set));
        shows(&day, &both);
        for members in 2..=128 {
            shows_among(&day, full(6), [1, 1, members], if members <= 3 { &both } else { &[] });
        }
        shows_among(&day, full(6), [3, 2, 3], &both);
        shows_among(&day, full(6), [4, 2, 3], &[]);
        shows_among(&day, full(6), [3, 3, 3], &[]);
    }
}

/// Their core is not split where the answer is no report: its core numbers are those of one core, and a part of a plan shows it whole, even around a
/// badge of one triangle.
#[test]
fn numbers_and_plans_are_not_split() {
    let day = Handed::new(&day_of(7, 3, &[(Clique, &[0, 1, 2], 0, 2), (Clique, &[3, 4, 5], 0, 2)]).words(), 7, 3);
    assert_eq!(day.core_numbers(0, 2, 7), Ok(vec![2, 2, 2, 2, 2, 2, 0]));
    for query in [0, 0b1, 0b100000, 0b001001] {
        assert_eq!(day.plan(query, 1, 32), Ok(plan_bytes(7, 3, query, &[(2, 0, 2, 0b0111111)])));
    }
}

/// D1's cores are of one piece each: its report is what it was, byte for byte.
#[test]
fn d1_is_as_it_was() {
    assert_eq!(d1(24).report(36), Ok(D1.to_vec()));
    assert_eq!(d1(24).report(35), Err((9, 0)));
}

/// A triangle and a ring of four, of the same order: with four members at least the ring alone is kept, though the core has seven.
#[test]
fn one_of_two_circles_is_large_enough() {
    let day = day_of(7, 2, &[(Clique, &[0, 1, 2], 0, 1), (Ring, &[3, 4, 5, 6], 0, 1)]);
    let (triangle, ring) = ((2, 0, 1, 0b0000111), (2, 0, 1, 0b1111000));
    for (members, groups) in [(2, &[triangle, ring][..]), (3, &[triangle, ring]), (4, &[ring]), (5, &[]), (7, &[])] {
        shows_among(&day, full(7), [1, 1, members], groups);
    }
}

/// A path of five, a pair, a star of three and a pair, in one tick: each least number of members keeps those that have so many, in their order, and
/// the end counts them.
#[test]
fn circles_that_pass_in_part() {
    let day = day_of(13, 2, &[(Path, &[12, 0, 4, 5, 6], 1, 1), (Pairs, &[1, 11, 2, 3], 1, 1), (Star, &[8, 7, 9], 1, 1)]);
    let circles: [Record; 4] = [(1, 1, 1, 1 << 12 | 0b1110001), (1, 1, 1, 1 << 11 | 0b10), (1, 1, 1, 0b1100), (1, 1, 1, 0b1110000000)];
    for members in 2..=8 {
        let passing: Vec<Record> = circles.into_iter().filter(|circle| circle.3.count_ones() as usize >= members).collect();
        assert_eq!(passing.len(), [4, 2, 1, 1, 0, 0, 0][members - 2]);
        shows_among(&day, full(13), [1, 1, members], &passing);
    }
    shows_among(&day, full(13), [1, 2, 2], &[]);
    shows_among(&day, full(13), [2, 1, 2], &[]);
}

/// By smallest member, within one span: not by largest, which would put {1,2,3} before {0,7}, nor by number of members, nor by the sets as numbers.
/// The spans come before that: the circle with badge 0 in ticks 1 to 2 stands after those of the spans before.
#[test]
fn the_order_of_records() {
    let first = [(Path, &[7, 0][..], 0, 0), (Path, &[3, 1, 2], 0, 0), (Path, &[5, 4], 0, 0), (Ring, &[6, 8, 9, 10], 0, 0)];
    let then = [(Clique, &[9, 3, 7][..], 1, 2), (Clique, &[0, 5, 10], 1, 2), (Path, &[6, 4], 0, 1)];
    let order_1: Vec<_> = first.iter().copied().filter(|team| team.1.len() < 4).collect();
    shows(&day_of(11, 1, &order_1), &[(1, 0, 0, 0b10000001), (1, 0, 0, 0b1110), (1, 0, 0, 0b110000)]);
    shows(
        &day_of(11, 3, &[&first[..], &then].concat()),
        &[(2, 0, 0, 0b11101000000), (1, 0, 1, 0b1010000), (2, 1, 2, 0b10000100001), (2, 1, 2, 0b1010001000)],
    );
}

/// Two triangles all day, and a pair between them. In one tick alone, or in all but one, it does not join them on the day's span; where another pair
/// joins them in each tick, neither, since none of these stays. On the ticks in which the pair is there they are in contact in one piece, but that
/// core has the order of the whole day's: no group. In every tick it joins them.
#[test]
fn a_pair_joins_only_throughout() {
    let triangles = [(Clique, &[0, 1, 2][..], 0, 3), (Clique, &[3, 4, 5], 0, 3)];
    let two = [(2, 0, 3, 0b000111), (2, 0, 3, 0b111000)];
    for (first, last) in [(0, 0), (2, 2), (3, 3), (0, 2), (1, 3)] {
        shows(&day_of(6, 4, &[&triangles[..], &[(Path, &[2, 3], first, last)]].concat()), &two);
    }
    let others = [(Path, &[0, 3][..], 0, 0), (Path, &[1, 4], 1, 1), (Path, &[2, 5], 2, 2), (Path, &[1, 3], 3, 3)];
    shows(&day_of(6, 4, &[&triangles[..], &others].concat()), &two);
    shows(&day_of(6, 4, &[&triangles[..], &[(Path, &[2, 3], 0, 3)]].concat()), &[(2, 0, 3, 0b111111)]);
}

/// Two teams of four, all in contact: order 3. A ninth badge that is with one of each has degree 2, and is no member: no chain goes through it. A
/// pair between the teams joins them.
#[test]
fn chains_of_members_alone() {
    let teams = [(Clique, &[0, 1, 2, 3][..], 0, 1), (Clique, &[4, 5, 6, 7], 0, 1)];
    let two = [(3, 0, 1, 0b00001111), (3, 0, 1, 0b11110000)];
    shows(&day_of(9, 2, &[&teams[..], &[(Path, &[3, 8, 4], 0, 1)]].concat()), &two);
    shows(&day_of(9, 2, &[&teams[..], &[(Path, &[3, 4], 0, 1)]].concat()), &[(3, 0, 1, 0b11111111)]);
}

/// Two triangles with a badge between them that is with one of each: one circle of seven. With that badge left out of the review they are two; with a
/// badge of a triangle left out, what is left of it is of order 1, and the other triangle is the core.
#[test]
fn chains_of_reviewed_badges_alone() {
    let day = day_of(7, 2, &[(Clique, &[0, 1, 2], 0, 1), (Clique, &[4, 5, 6], 0, 1), (Path, &[2, 3, 4], 0, 1)]);
    shows(&day, &[(2, 0, 1, 0b1111111)]);
    shows_among(&day, 0b1110111, PLAIN, &[(2, 0, 1, 0b0000111), (2, 0, 1, 0b1110000)]);
    shows_among(&day, 0b1111101, PLAIN, &[(2, 0, 1, 0b1110000)]);
    // a path through all of them, without the badge in its middle
    let path = day_of(5, 1, &[(Path, &[0, 1, 2, 3, 4], 0, 0)]);
    shows(&path, &[(1, 0, 0, 0b11111)]);
    shows_among(&path, 0b11011, PLAIN, &[(1, 0, 0, 0b00011), (1, 0, 0, 0b11000)]);
    shows_among(&path, 0b10111, PLAIN, &[(1, 0, 0, 0b00111)]);
}

/// Pairs 0–1 in tick 0 and 2–3 in ticks 0 to 1. On tick 0 both make a core of order 1, and so is 2–3 on ticks 0 to 1, which contain it: the first is
/// not maximal. Whoever asked circle by circle, whether one with its members lasts longer, would show 0–1 in tick 0, too, which is wrong.
#[test]
fn a_longer_core_of_others() {
    shows(&day_of(4, 2, &[(Pairs, &[0, 1], 0, 0), (Pairs, &[2, 3], 0, 1)]), &[(1, 0, 1, 0b1100)]);
    // 4–5 in tick 1 alone is in no group either: each of the others lasts longer, on either side
    let day = day_of(6, 3, &[(Pairs, &[0, 1], 0, 1), (Pairs, &[2, 3], 1, 2), (Pairs, &[4, 5], 1, 1)]);
    shows(&day, &[(1, 0, 1, 0b000011), (1, 1, 2, 0b001100)]);
    // and without 2 and 3 it still is in none, without all four it is
    shows_among(&day, 0b110011, PLAIN, &[(1, 0, 1, 0b000011)]);
    shows_among(&day, 0b110000, PLAIN, &[(1, 1, 1, 0b110000)]);
}

/// A triangle and a team of four in one tick: order 3, and the triangle is in no group, since the core of order 2 that it is in, with all seven, has
/// the same span and a smaller order. Asked circle by circle it would be a group of order 2, which is wrong. Nor does a least number of members bring
/// it back.
#[test]
fn a_larger_order_of_others() {
    let day = day_of(7, 1, &[(Clique, &[0, 1, 2], 0, 0), (Clique, &[3, 4, 5, 6], 0, 0)]);
    for (members, groups) in [(2, &[(3, 0, 0, 0b1111000)][..]), (4, &[(3, 0, 0, 0b1111000)]), (5, &[])] {
        shows_among(&day, full(7), [1, 1, members], groups);
    }
    // the triangle lasts longer: then it is a group, on its own span
    let day = day_of(7, 2, &[(Clique, &[0, 1, 2], 0, 1), (Clique, &[3, 4, 5, 6], 0, 0)]);
    shows(&day, &[(3, 0, 0, 0b1111000), (2, 0, 1, 0b0000111)]);
}

/// Two triangles in tick 0, of which one keeps two of its pairs in tick 1, and the other one pair: of order 1 they are two circles again, with fewer
/// members.
#[test]
fn circles_of_longer_spans() {
    let triangles = [(Clique, &[0, 1, 2][..], 0, 0), (Clique, &[3, 4, 5], 0, 0)];
    let day = day_of(6, 2, &[&triangles[..], &[(Path, &[0, 1, 2], 1, 1), (Path, &[3, 5], 1, 1)]].concat());
    let groups = [(2, 0, 0, 0b000111), (2, 0, 0, 0b111000), (1, 0, 1, 0b000111), (1, 0, 1, 0b101000)];
    shows(&day, &groups);
    shows_among(&day, full(6), [1, 1, 3], &groups[..3]);
    shows_among(&day, full(6), [2, 1, 3], &groups[2..3]);
    shows_among(&day, full(6), [1, 2, 3], &groups[..2]);
}

/// As many circles as there can be of an order k: teams of k + 1 badges, all in contact, as far as there are so many, their members apart by the
/// number of teams.
#[test]
fn as_many_as_there_can_be() {
    for n in [2, 3, 7, 32, 63, 64, 65, 127, 128] {
        for k in 1..n {
            let count = n / (k + 1);
            let teams: Vec<Vec<usize>> = (0..count).map(|i| (0..=k).map(|j| i + j * count).collect()).collect();
            let day = day_of(n, 2, &teams.iter().map(|team| (Clique, &team[..], 0, 1)).collect::<Vec<_>>());
            shows(&day, &teams.iter().map(|team| (k, 0, 1, team.iter().map(|u| 1 << u).sum())).collect::<Vec<_>>());
        }
    }
}

/// 32 pairs that are others in each tick, and 64: each is a group, in its tick, and none is on two ticks. Badge 0 has another partner in each of 32
/// ticks, or 64, and in the day that is read from a log one of four.
#[test]
fn other_pairs_in_each_tick() {
    for n in [64, 128] {
        let (day, groups) = (changing_pairs(n), changing_groups(n));
        assert_eq!(groups.len(), 96 * n / 2);
        shows(&day, &groups);
        shows_among(&day, full(n), [1, 1, 3], &[]);
        shows_among(&day, full(n), [2, 1, 2], &[]);
    }
    let groups = digit_groups(64, 96, 1);
    assert_eq!(groups.len(), 96 * 32);
    shows(&judge(&digit_log(64, 96 * 64, 1)).expect("a log").0, &groups);
}

/// The longest report that a listing shows, 5,040 records in 65,530 bytes, and one with a record more, both from a log. On 90 spans each there are 8
/// circles of order 3, in one tick, 16 of order 2, in two, and 32 of order 1, in three.
#[test]
fn reports_about_the_longest_listing() {
    let (mut groups, logs) = (digit_groups(64, 92, 3), [0, 1].map(|more| digit_log(64, MOST_LISTED + more, 3)));
    assert_eq!(groups.len(), 90 * (8 + 16 + 32));
    for (log, records) in logs.iter().zip([5040, 5041]) {
        assert_eq!(read(log, 12288).map(|day| day.2), Ok(MOST_LISTED + records - 5040));
        is_about_65536(log, &groups, 10 + 13 * records);
        groups.push(ONE_MORE);
    }
}

/// The same of 128 badges and 48 ticks: 3,120 records in 65,530 bytes, and one record more.
#[test]
fn wide_reports_about_the_longest_listing() {
    for (pairs, records) in [(MOST_PAIRS, 3120), (MOST_PAIRS + 1, 3121)] {
        let (log, groups) = (wide_log(pairs), wide_groups(pairs));
        assert_eq!((read(&log, 12288), groups.len()), (Ok((128, 48, 33 * 128 + pairs)), records));
        is_about_65536(&log, &groups, 10 + 21 * records);
    }
}

/// The day of a log has these groups, and a report of so many bytes, into 65,536 and into as many as any report takes.
fn is_about_65536(log: &[u8], groups: &[Record], len: usize) {
    let (day, _) = judge(log).expect("a log");
    shows(&day, groups);
    let handed = Handed::new(&day.words(), day.n, day.ticks);
    assert_eq!(handed.report(65536).map_or(0, |report| report.len()), if len <= 65536 { len } else { 0 });
    assert_eq!(handed.report(ward::REPORT_BYTES).map(|report| report.len()), Ok(len));
}

/// Teams in which each badge misses another one in each tick: up to 9,590 records of 64 badges, and up to 19,180 of 128, more than any listing shows.
/// With three members at least the pairs are left out, half as many as there are badges on each span that leaves one partner.
#[test]
fn many_records() {
    let narrow = [(4, 4576), (8, 7624), (16, 9324), (32, 9590), (64, 7288)].map(|(size, records)| (64, size, records));
    let wide = [(16, 18648), (32, 19180), (64, 14576), (128, 4720)].map(|(size, records)| (128, size, records));
    for (n, size, records) in narrow.into_iter().chain(wide) {
        let (day, groups) = (team_day(n, size), team_groups(n, size));
        assert_eq!(groups.len(), records, "{n}, {size}");
        shows(&day, &groups);
        let larger: Vec<Record> = groups.into_iter().filter(|group| group.3.count_ones() > 2).collect();
        assert_eq!(larger.len(), records - n / 2 * 99usize.saturating_sub(size), "{n}, {size}");
        shows_among(&day, full(n), [1, 1, 3], &larger);
    }
}

/// Room for any report: for each order k from 1 as many cores as there are ticks, and of each as many circles as there can be, of k + 1 badges; of
/// every size, and with larger numbers taken as the largest.
#[test]
fn room_for_any_report() {
    let circles = |n: usize| (1..n.max(1)).map(|k| n / (k + 1)).sum::<usize>();
    for n in 0..=128 {
        for ticks in 0..=96 {
            assert_eq!(ward::report_bytes(n, ticks), 10 + if n <= 64 { 13 } else { 21 } * ticks * circles(n));
        }
        assert_eq!(ward::report_bytes(n, usize::MAX), ward::report_bytes(n, 96));
    }
    assert_eq!((circles(64), ward::report_bytes(64, 96)), (216, 10 + 13 * 20736));
    assert_eq!((circles(128), ward::REPORT_BYTES), (517, 10 + 21 * 49632));
    for n in [128, 129, 1 << 32, usize::MAX] {
        assert_eq!(ward::report_bytes(n, 96), ward::REPORT_BYTES);
        assert_eq!(ward::report_bytes(n, 0), 10);
    }
}

/// The records of a report.
fn records(report: &[u8]) -> Vec<Record> {
    let record = |bytes: &[u8]| {
        let [order, first, last] = [bytes[2], bytes[3], bytes[4]].map(usize::from);
        (order, first, last, bytes[5..].iter().rev().fold(0, |set, byte| set << 8 | u128::from(*byte)))
    };
    report[4..report.len() - 6].chunks(if report.starts_with(b"RW") { 21 } else { 13 }).map(record).collect()
}

/// What is joined to somebody in a set, throughout a span.
fn neighbours(words: &[u64], n: usize, (first, last): (usize, usize), set: u128) -> u128 {
    let contacts = |place: usize| u128::from(words[2 * place]) | u128::from(words[2 * place + 1]) << 64;
    let row = |u: usize| (first..=last).fold(u128::MAX, |row, t| row & contacts(t * n + u));
    (0..n).filter(|u| set >> u & 1 == 1).fold(0, |joined, u| joined | row(u))
}

/// What holds of the plain report of any day, without the model: "a core's circles together are exactly that core", by the core numbers that the
/// engine gives on the span; no two have a member in common, or are joined; each is joined by chains within; and they stand by smallest member. Gives
/// how many circles there are beyond the first of each core.
fn are_circles(words: &[u64], n: usize, ticks: usize, review: u128) -> usize {
    let day = Handed::reviewing(words, n, ticks, review);
    let records = records(&day.report(ward::report_bytes(n, ticks)).expect("a report"));
    let cores: Vec<&[Record]> = records.chunk_by(|a, b| (a.1, a.2) == (b.1, b.2)).collect();
    assert!(cores.windows(2).all(|pair| (pair[0][0].1, pair[0][0].2) < (pair[1][0].1, pair[1][0].2)));
    for circles in &cores {
        let (order, first, last, _) = circles[0];
        let numbers = day.core_numbers(first, last, n).expect("core numbers");
        let core: u128 = (0..n).filter(|u| numbers[*u] as usize >= order).map(|u| 1 << u).sum();
        assert_eq!(numbers.iter().copied().max(), Some(order as u8));
        assert!(circles.iter().all(|circle| circle.0 == order));
        assert_eq!(circles.iter().fold(0, |all, circle| all | circle.3), core);
        assert_eq!(circles.iter().map(|circle| circle.3.count_ones()).sum::<u32>(), core.count_ones());
        assert!(circles.windows(2).all(|pair| pair[0].3.trailing_zeros() < pair[1].3.trailing_zeros()));
        for circle in *circles {
            assert_eq!(neighbours(words, n, (first, last), circle.3) & core, circle.3);
            let mut reached = circle.3 & circle.3.wrapping_neg();
            for _ in 0..n {
                reached |= neighbours(words, n, (first, last), reached) & circle.3;
            }
            assert_eq!(reached, circle.3);
        }
    }
    records.len() - cores.len()
}

/// A number of badges, and of ticks: up to 20 badges mostly; in one of 50 days any number, and in another one about as many as a word holds, or two
/// words.
fn random_size(random: &mut Random, day: usize) -> (usize, usize) {
    match day % 50 {
        0 => (1 + random.below(128), 1 + random.below(30)),
        25 => (about_whole_words(random), 1 + random.below(12)),
        _ => (1 + random.below(20), 1 + random.below(8)),
    }
}

/// Random days of teams, of all badges and of some: in a third of them or more, some core falls apart.
#[test]
fn of_random_teams() {
    let (mut random, mut days) = (Random(101), 0);
    for i in 0..3000 {
        let (n, ticks) = random_size(&mut random, i);
        let (words, review) = (random_teams(&mut random, n, ticks).words(), reviewable(&mut random, n));
        days += usize::from(are_circles(&words, n, ticks, full(n)) > 0) + usize::from(are_circles(&words, n, ticks, review) > 0);
    }
    assert!(days > 2000, "{days} of 6,000 days have a core of several circles");
}

/// The largest days of teams.
#[test]
fn of_the_largest_days() {
    let mut random = Random(102);
    for n in [64, 64, 65, 128, 128] {
        let words = random_teams(&mut random, n, 96).words();
        assert!(are_circles(&words, n, 96, full(n)) > 0);
    }
}

/// Random days of teams under thresholds: into a buffer of the exact length, of one byte less and more, of as much as the plain report takes, and of
/// any other length up to the exact one. Of some cores a part of the circles is kept.
#[test]
fn random_teams_under_thresholds() {
    let (mut random, mut in_part) = (Random(103), 0);
    for i in 0..2000 {
        let (n, ticks) = random_size(&mut random, i);
        let words = random_teams(&mut random, n, ticks).words();
        let review = if random.below(2) == 0 { full(n) } else { reviewable(&mut random, n) };
        let day = Handed::reviewing(&words, n, ticks, review);
        let plain = day.report(ward::report_bytes(n, ticks)).expect("a report");
        for least in [[1, 1, 3], [1, 1, 4], [1, 1, 2 + random.below(n)], random_least(&mut random, n, ticks)] {
            let Ok(kept) = day.filtered(least, plain.len()) else { continue };
            for room in [kept.len() - 1, kept.len(), kept.len() + 1, plain.len(), random.below(kept.len())] {
                assert_eq!(day.filtered(least, room).is_ok(), room >= kept.len());
            }
            let spans = |report: &[u8]| -> Vec<_> { records(report).iter().map(|record| (record.1, record.2)).collect() };
            let (all, kept) = (spans(&plain), spans(&kept));
            in_part += usize::from(all.iter().any(|span| kept.contains(span) && count(&kept, span) < count(&all, span)));
        }
    }
    assert!(in_part > 300, "{in_part} reports have a part of the circles of a core");
    all_seen("report", &[9, 17]);
}

fn count(spans: &[(usize, usize)], span: &(usize, usize)) -> usize {
    spans.iter().filter(|other| *other == span).count()
}
