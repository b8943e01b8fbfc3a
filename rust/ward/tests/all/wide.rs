//! More than 64 badges, whose sets take both of their words: bytes, words and traces written by hand, teams across the words, and the sizes at which
//! the form of reports and plans changes.

use crate::model::{Day, PLAIN, Record, full, log_bytes, plan_bytes, report_bytes};
use crate::support::calls::{read, tidy};
use crate::support::handed::Handed;
use crate::support::seen::all_seen;
use crate::support::sets::words_of;
use crate::support::teams::Shape::*;
use crate::support::teams::{Shape, gather};

/// Badges 63 and 64 of 65 in contact in the second of two ticks, the log from either side.
const LOG: &[u8; 16] = b"BH\x41\x02CT\x40\x3f\x01\x01ED\x01\x00\x00\x00";
const TIDY: &[u8; 16] = b"BH\x41\x02CT\x3f\x40\x01\x01ED\x01\x00\x00\x00";

/// Its words: the set of badge 63 in tick 1 is in words 256 and 257, and that of badge 64 in words 258 and 259.
fn words() -> Vec<u64> {
    let mut words = vec![0; 260];
    (words[257], words[258]) = (1, 1 << 63);
    words
}

const REPORT: &[u8; 31] = b"RW\x41\x02\
    GW\x01\x01\x01\x00\x00\x00\x00\x00\x00\x00\x80\x01\x00\x00\x00\x00\x00\x00\x00\
    ED\x01\x00\x00\x00";

/// The plan around badge 64 in two parts: score 0 and all badges, then score 1.
const PLAN: &[u8; 69] = b"PW\x41\x02\x02\x00\x00\x00\x00\x00\x00\x00\x00\x01\x00\x00\x00\x00\x00\x00\x00\
    QW\x00\x00\x00\xff\xff\xff\xff\xff\xff\xff\xff\x01\x00\x00\x00\x00\x00\x00\x00\
    QW\x01\x01\x01\x00\x00\x00\x00\x00\x00\x00\x80\x01\x00\x00\x00\x00\x00\x00\x00\
    ED\x02\x00\x00\x00";

#[test]
fn a_pair_across_the_words() {
    let mut read_into = vec![7; 262];
    assert_eq!(ward::read(LOG, &mut read_into), Ok(ward::Day { badges: 65, ticks: 2, contacts: 1 }));
    assert_eq!((&read_into[..260], &read_into[260..]), (&words()[..], &[7, 7][..]));
    assert_eq!((read(LOG, 260), read(LOG, 259)), (Ok((65, 2, 1)), Err((8, 0))));
    assert_eq!(tidy(LOG, 260, 16), Ok(TIDY.to_vec()));

    let day = Handed::new(&words(), 65, 2);
    assert_eq!(day.write(16), Ok(TIDY.to_vec()));
    for room in 0..=80 {
        assert_eq!(day.report(room), if room < 31 { Err((9, 0)) } else { Ok(REPORT.to_vec()) });
        assert_eq!(day.plan(1 << 64, 2, room), if room < 69 { Err((9, 0)) } else { Ok(PLAN.to_vec()) });
    }
    let mut numbers = vec![0; 65];
    assert_eq!(day.core_numbers(0, 1, 65), Ok(numbers.clone()));
    (numbers[63], numbers[64]) = (1, 1);
    assert_eq!(day.core_numbers(1, 1, 65), Ok(numbers));
    assert_eq!(day.core_numbers(1, 1, 64), Err((9, 0)));

    let mut trace = vec![255; 130];
    (trace[64], trace[63], trace[65 + 63]) = (0, 1, 64);
    assert_eq!(day.trace(64, 0, 130), Ok(trace));
    assert_eq!(day.trace(64, 0, 129), Err((9, 0)));
    assert_eq!(day.trace(65, 0, 130), Err((22, 0)));
}

/// The report and the plan of a day without contacts, of 64 badges and of 65, byte for byte.
#[test]
fn without_contacts() {
    for (n, report, plan) in [
        (
            64,
            &b"RH\x40\x01ED\x00\x00\x00\x00"[..],
            &b"PH\x40\x01\x01\x00\x00\x00\x00\x00\x00\x00\x80PT\x00\x00\x00\xff\xff\xff\xff\xff\xff\xff\xffED\x01\x00\x00\x00"[..],
        ),
        (
            65,
            b"RW\x41\x01ED\x00\x00\x00\x00",
            b"PW\x41\x01\x01\x00\x00\x00\x00\x00\x00\x00\x80\x00\x00\x00\x00\x00\x00\x00\x00\
              QW\x00\x00\x00\xff\xff\xff\xff\xff\xff\xff\xff\x01\x00\x00\x00\x00\x00\x00\x00ED\x01\x00\x00\x00",
        ),
    ] {
        let day = Handed::new(&vec![0; 2 * n], n, 1);
        assert_eq!(day.report(10), Ok(report.to_vec()));
        assert_eq!(day.plan(1 << 63, 1, plan.len()), Ok(plan.to_vec()));
        assert_eq!(day.plan(1 << 63, 1, plan.len() - 1), Err((9, 0)));
    }
}

/// The wide marks and sets of 16 bytes from 65 badges on, and never below: the last badge and the first in contact, or one badge alone.
#[test]
fn the_form_by_the_number_of_badges() {
    for n in 1..=128 {
        let mut day = Day::empty(n, 1);
        (n > 1).then(|| day.meet(0, 0, n - 1));
        let handed = Handed::new(&day.words(), n, 1);
        let (report, plan) = (handed.report(31).expect("a report"), handed.plan(0, 1, 48).expect("a plan"));
        let marks = [&report[..2], report.get(4..6).unwrap_or(b""), &plan[..2], &plan[if n <= 64 { 13 } else { 21 }..][..2]];
        let (expected, size) = if n <= 64 { ([b"RH", b"GR", b"PH", b"PT"], 13) } else { ([b"RW", b"GW", b"PW", b"QW"], 21) };
        assert!(marks.iter().zip(&expected).all(|(mark, expected)| mark == expected || n == 1 && *mark == b"ED"), "{n}: {marks:?}");
        assert_eq!((report.len(), plan.len()), (10 + if n > 1 { size } else { 0 }, 2 * size + 6));
        assert_eq!((handed.report(report.len() - 1), handed.plan(0, 1, plan.len() - 1)), (Err((9, 0)), Err((9, 0))));
    }
}

/// 3 and 10 above 128 badges: a log and words of 129; and of 128 not.
#[test]
fn more_badges_than_there_can_be() {
    assert_eq!(read(b"BH\x80\x01ED\x00\x00\x00\x00", 256), Ok((128, 1, 0)));
    for n in 129..=255 {
        assert_eq!(read(&log_bytes(n, 1, &[]), 600), Err((3, 0)));
        assert_eq!(tidy(&log_bytes(n, 1, &[]), 600, 10), Err((3, 0)));
        let day = Handed::new(&[0; 600], n.into(), 1);
        assert_eq!(
            [day.write(10), day.trace(0, 0, 600), day.core_numbers(0, 0, 300), day.report(10), day.plan(0, 1, 48)],
            [const { Err((10, 0)) }; 5]
        );
    }
    let day = Handed::new(&[0; 256], 128, 1);
    assert!([day.write(10), day.trace(0, 0, 256), day.core_numbers(0, 0, 128), day.report(10), day.plan(0, 1, 48)].iter().all(Result::is_ok));
    all_seen("write", &[10]);
}

/// Badge 64 in a day of 64 badges: 11 in its words, also where badge 64 seems to have the mirror, 20 as a reviewed badge, 13 in a query; and of 65
/// badges none of these.
#[test]
fn badge_64_of_64() {
    let mut words = vec![0; 2 * 65];
    (words[1], words[128]) = (1, 1);
    for (n, number) in [(64, 11), (65, 0)] {
        let day = Handed::new(&words, n, 1);
        let answers = [day.write(16), day.trace(0, 0, 130), day.core_numbers(0, 0, 65), day.report(31), day.plan(0, 1, 48)];
        assert_eq!(answers.map(|answer| answer.map_or_else(|refusal| refusal.0, |_| 0)), [number; 5]);
    }
    for (n, review, query) in [(64, 20, 13), (65, 0, 0)] {
        let number = |answer: Result<Vec<u8>, (u8, usize)>| answer.map_or_else(|refusal| refusal.0, |_| 0);
        for set in [1 << 64, full(64) | 1 << 64] {
            let day = Handed::reviewing(&[0; 130], n, 1, set);
            assert_eq!([day.core_numbers(0, 0, 65), day.report(10), day.plan(0, 1, 48)].map(number), [review; 3]);
            assert_eq!(number(Handed::new(&[0; 130], n, 1).plan(set, 1, 48)), query);
        }
    }
}

/// The report and the whole core of a day of one tick: its groups, and its plan in one part.
fn shows(day: &Day, review: u128, groups: &[Record], core: u128) {
    let handed = Handed::reviewing(&day.words(), day.n, day.ticks, review);
    let report = report_bytes(day.n, day.ticks, groups);
    assert_eq!(handed.report(report.len()), Ok(report.clone()));
    assert_eq!(handed.report(report.len() - 1), Err((9, 0)));
    let order = groups.first().map_or(0, |group| group.0);
    assert_eq!(handed.plan(0, 1, 48), Ok(plan_bytes(day.n, day.ticks, 0, &[(order, 0, 0, core)])));
}

fn set(badges: &[usize]) -> u128 {
    badges.iter().map(|u| 1 << u).sum()
}

fn day_of(n: usize, teams: &[(Shape, &[usize])]) -> Day {
    let mut day = Day::empty(n, 1);
    for (shape, team) in teams {
        gather(&mut day, *shape, team, 0..=0);
    }
    day
}

/// A team of three with badges on both sides, whole and without one of them under review.
#[test]
fn a_team_across_the_words() {
    for team in [[62, 63, 64], [63, 64, 65], [0, 63, 64], [63, 64, 127], [0, 64, 127], [64, 65, 66], [125, 126, 127], [0, 1, 127]] {
        let (day, members) = (day_of(128, &[(Clique, &team)]), set(&team));
        shows(&day, full(128), &[(2, 0, 0, members)], members);
        for left_out in team {
            let (review, pair) = (full(128) & !(1 << left_out), members & !(1 << left_out));
            shows(&day, review, &[(1, 0, 0, pair)], pair);
        }
    }
}

/// Circles stand by smallest member, wherever their other members are: not by the upper word, nor by the lower one alone, which several may have
/// empty.
#[test]
fn the_order_of_circles() {
    let teams: [&[usize]; 6] = [&[0, 127], &[1, 64], &[2, 3], &[62, 126], &[65, 66], &[67, 125]];
    for turned in 0..6 {
        let mut others = teams;
        others.rotate_left(turned);
        let day = day_of(128, &others.map(|team| (Path, team)));
        shows(&day, full(128), &teams.map(|team| (1, 0, 0, set(team))), teams.iter().map(|team| set(team)).sum());
    }
}

/// A path through all badges, and a ring: one circle. Without badge 63 or 64 under review the path falls into two, of 63 and 64 badges, and the ring
/// is a path.
#[test]
fn a_path_through_all_badges() {
    let badges: Vec<usize> = (0..128).collect();
    let (path, ring, everyone) = (day_of(128, &[(Path, &badges)]), day_of(128, &[(Ring, &badges)]), full(128));
    shows(&path, everyone, &[(1, 0, 0, everyone)], everyone);
    shows(&ring, everyone, &[(2, 0, 0, everyone)], everyone);
    for left_out in [63, 64] {
        let (review, lower) = (everyone & !(1 << left_out), full(left_out));
        shows(&path, review, &[(1, 0, 0, lower), (1, 0, 0, review & !lower)], review);
        shows(&ring, review, &[(1, 0, 0, review)], review);
    }
}

/// A tail that is dropped badge by badge, from badge 3 up to badge 127 and from badge 124 down to badge 0, until the three at its end are left.
#[test]
fn a_tail_through_both_words() {
    for (team, from) in [([0, 1, 2], 2), ([125, 126, 127], 125)] {
        let tail: Vec<usize> = if from == 2 { (2..128).collect() } else { (0..=125).rev().collect() };
        let day = day_of(128, &[(Clique, &team), (Path, &tail)]);
        shows(&day, full(128), &[(2, 0, 0, set(&team))], set(&team));
        let numbers = Handed::new(&day.words(), 128, 1).core_numbers(0, 0, 128).expect("core numbers");
        assert!((0..128).all(|u| numbers[u] == if team.contains(&u) { 2 } else { 1 }));
    }
}

/// Least members and least order up to their largest: all 128 in contact meet 127 and 128, and 127 of them do not.
#[test]
fn the_largest_thresholds() {
    for n in [127, 128] {
        let badges: Vec<usize> = (0..n).collect();
        let day = Handed::new(&day_of(128, &[(Clique, &badges)]).words(), 128, 1);
        let (group, none) = (report_bytes(128, 1, &[(n - 1, 0, 0, full(n))]), report_bytes(128, 1, &[]));
        for (least, met) in [([1, 126, 2], true), ([1, 1, 127], true), ([1, 127, 2], n == 128), ([1, 1, 128], n == 128), ([1, 127, 128], n == 128)] {
            assert_eq!(day.filtered(least, 31), Ok(if met { &group } else { &none }.clone()));
        }
        for least in [[1, 128, 2], [1, 1, 129]] {
            assert_eq!(day.filtered(least, 31), Err((17, 0)));
        }
        assert_eq!(day.filtered(PLAIN, 31), Ok(group));
    }
}

/// A plan around badges on both sides, over three ticks: badges 63 and 64 are together in ticks 0 and 2, with badge 127 in tick 2.
#[test]
fn plans_around_badges_of_both_words() {
    let (pair, three) = (set(&[63, 64]), set(&[63, 64, 127]));
    let mut day = Day::empty(128, 3);
    gather(&mut day, Path, &[63, 64], 0..=0);
    gather(&mut day, Clique, &[63, 64, 127], 2..=2);
    let handed = Handed::new(&day.words(), 128, 3);
    for query in [1 << 63, 1 << 64, pair] {
        let parts = [(1, 0, 0, pair), (0, 1, 1, full(128)), (2, 2, 2, three)];
        assert_eq!(handed.plan(query, 3, 90), Ok(plan_bytes(128, 3, query, &parts)));
    }
    let parts = [(0, 0, 0, full(128)), (0, 1, 1, full(128)), (2, 2, 2, three)];
    assert_eq!(handed.plan(1 << 127, 3, 90), Ok(plan_bytes(128, 3, 1 << 127, &parts)));
    assert_eq!(handed.plan(1 << 127, 3, 89), Err((9, 0)));
}

/// A chain from badge 0 to badge 127 and back to badge 1, by badges of both words; of two sources that may pass on, the smaller is shown, where one
/// is of the upper word, and where both are.
#[test]
fn chains_across_the_words() {
    let mut day = Day::empty(128, 5);
    for (t, u, v) in [(0, 0, 64), (1, 64, 63), (2, 63, 127), (2, 64, 127), (3, 127, 126), (3, 64, 126), (4, 1, 126), (4, 1, 127)] {
        day.meet(t, u, v);
    }
    let mut trace = vec![255; 256];
    for (u, tick, source) in [(0, 0, 255), (64, 0, 0), (63, 1, 64), (127, 2, 63), (126, 3, 64), (1, 4, 126)] {
        (trace[u], trace[128 + u]) = (tick, source);
    }
    assert_eq!(Handed::new(&day.words(), 128, 5).trace(0, 0, 256), Ok(trace));
}

/// The runs of a log of badges from both words: in the order of badges as numbers from 0 to 127.
#[test]
fn the_order_of_a_tidy_log() {
    let log =
        log_bytes(128, 9, &[[127, 64, 0, 0], [64, 63, 3, 4], [127, 0, 8, 8], [63, 64, 5, 5], [63, 127, 1, 1], [126, 127, 0, 8], [62, 63, 2, 2]]);
    let tidied = [[0, 127, 8, 8], [62, 63, 2, 2], [63, 64, 3, 5], [63, 127, 1, 1], [64, 127, 0, 0], [126, 127, 0, 8]];
    assert_eq!(tidy(&log, 2304, 46), Ok(log_bytes(128, 9, &tidied)));
    assert_eq!((tidy(&log, 2304, 45), tidy(&log, 2303, 46)), (Err((9, 0)), Err((8, 0))));
}

/// The words of one tick of 128 badges in which each is in contact with the one that is 64 away.
#[test]
fn words_of_pairs_64_apart() {
    let contacts: Vec<[u8; 4]> = (0..64).map(|u| [u + 64, u, 0, 0]).collect();
    let mut words = vec![7; 257];
    assert_eq!(ward::read(&log_bytes(128, 1, &contacts), &mut words), Ok(ward::Day { badges: 128, ticks: 1, contacts: 64 }));
    let sets: Vec<u128> = (0..128).map(|u| 1 << (u ^ 64)).collect();
    assert_eq!((&words[..256], words[256]), (&words_of(&sets)[..], 7));
    assert!((0..64).all(|u| words[2 * u..2 * u + 2] == [0, 1 << u] && words[128 + 2 * u..130 + 2 * u] == [1 << u, 0]));
}
