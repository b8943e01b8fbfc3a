//! Every call against the model: random inputs, long and short, valid and damaged, all sizes.

use crate::model::{self, PLAIN, full, record_size, words_for};
use crate::support::calls::{day_of, join, read, tidy};
use crate::support::days::{about_whole_words, random_day};
use crate::support::handed::Handed;
use crate::support::logs::{damage, long, random_log};
use crate::support::random::Random;
use crate::support::receivers::{damage_one, end_to_end, join_all, random_receivers, resize_one};
use crate::support::seen::all_seen;
use crate::support::sets::{random_query, random_review, reviewable};
use crate::support::teams::random_teams;
use crate::thresholds::random_least;
use crate::tidying::settles;

/// Sizes near the exact one, and some that are not.
fn near(random: &mut Random, exact: usize) -> usize {
    match random.below(6) {
        0 => exact.saturating_sub(1),
        1 => exact + 1,
        2 => exact + random.below(40),
        3 => random.below(exact + 1),
        _ => exact,
    }
}

/// A number of badges: mostly up to so many, and in one of 20 cases about as many as a word holds, or two words.
fn some_badges(random: &mut Random, few: usize) -> usize {
    if random.below(20) == 0 { about_whole_words(random) } else { 1 + random.below(few) }
}

/// Read and tidy, lent about as much as they need; and the tidy log.
fn compare_log(random: &mut Random, log: &[u8]) {
    let day = day_of(log, usize::MAX).map(|(day, _)| day);
    let lent = near(random, day.as_ref().map_or(40, |day| words_for(day.n, day.ticks)));
    let room = near(random, day.as_ref().map_or(30, |day| 10 + 6 * day.runs().len()));
    _ = read(log, lent);
    if let Ok(tidied) = tidy(log, lent, room) {
        settles(&tidied);
    }
}

fn compare_random_log(random: &mut Random, n: usize, ticks: usize, most: usize) {
    let count = random.below(most + 1);
    let mut log = random_log(random, n, ticks, count);
    if random.below(2) == 0 {
        damage(random, &mut log);
    }
    compare_log(random, &log);
}

#[test]
fn logs() {
    let mut random = Random(1);
    for i in 0..200_000 {
        let (n, ticks) = (some_badges(&mut random, 7), 1 + random.below(6));
        compare_random_log(&mut random, n, ticks, if i % 1000 == 0 { 8000 } else { 12 });
    }
    all_seen("read", &[1, 2, 3, 4, 6, 7, 8]);
    all_seen("tidy", &[1, 2, 3, 4, 6, 7, 8, 9]);
}

#[test]
fn logs_of_all_sizes() {
    let mut random = Random(2);
    for n in 1..=128 {
        for ticks in (1 + n % 3..=96).step_by(3) {
            let most = if ticks == 1 + n % 96 { 8000 } else { 40 };
            compare_random_log(&mut random, n, ticks, most);
        }
    }
    for n in 0..=255 {
        for ticks in [0, 1, 96, 97, 255] {
            compare_log(&mut random, &model::log_bytes(n, ticks, &[]));
            compare_log(&mut random, &model::log_bytes(ticks, n, &[]));
        }
    }
}

#[test]
fn longest_logs() {
    let mut random = Random(3);
    for n in [64, 128u8] {
        let contacts: Vec<[u8; 4]> = (0..8001).map(|i| [(i % (n as usize - 1)) as u8, n - 1, (i % 96) as u8, 95]).collect();
        for count in [7999, 8000, 8001] {
            let log = model::log_bytes(n, 96, &contacts[..count]);
            for cut in 0..14 {
                compare_log(&mut random, &log[..log.len() - cut]);
                compare_log(&mut random, &log);
            }
        }
    }
    all_seen("read", &[1, 5, 8]);
    all_seen("tidy", &[1, 5, 8, 9]);
}

/// Receivers of a random day, with about as many words or work words lent as they need. In half of the cases there are faults: another n or T in one log, a
/// damaged log or another number of logs, a quorum out of its limits, a length changed in one bit; sometimes several of these.
fn compare_random_receivers(random: &mut Random, n: usize, ticks: usize, most: usize) {
    let mut logs = random_receivers(random, n, ticks, most);
    let mut quorum = 1 + random.below(logs.len());
    if random.below(8) == 0 {
        resize_one(random, &mut logs);
    }
    if random.below(3) == 0 {
        damage_one(random, &mut logs);
    }
    if random.below(16) == 0 {
        quorum = [0, logs.len() + 1, usize::MAX][random.below(3)];
    }
    let (bytes, mut lengths) = end_to_end(&logs);
    if random.below(16) == 0 && !lengths.is_empty() {
        let at = random.below(lengths.len());
        lengths[at] ^= 1 << random.below(64);
    }
    let (mut lent, mut work) = (words_for(n, ticks), logs.len() * words_for(n, ticks));
    if random.below(2) == 0 {
        lent = near(random, lent);
    } else {
        work = near(random, work);
    }
    _ = join(&bytes, &lengths, quorum, lent, work);
}

#[test]
fn receivers() {
    let mut random = Random(7);
    for _ in 0..40_000 {
        let (n, ticks) = (some_badges(&mut random, 7), 1 + random.below(6));
        compare_random_receivers(&mut random, n, ticks, 100);
    }
    assert_eq!(join_all(&[long(4, 3, 8000), long(4, 3, 8001)], 1, 24, 48), Err((5, 96014)));
    all_seen("join", &[1, 2, 3, 4, 5, 6, 7, 8, 18, 19]);
}

/// Every number of ticks and every number of badges; and the largest.
#[test]
fn receivers_of_all_sizes() {
    let mut random = Random(8);
    for n in 1..=128 {
        compare_random_receivers(&mut random, n, 1 + 7 * n % 96, 8000);
    }
    for n in [64, 128].repeat(6) {
        compare_random_receivers(&mut random, n, 96, 8000);
    }
}

/// A number below a count, as badges and ticks of a day are; or one that is not.
fn about_below(random: &mut Random, count: usize) -> usize {
    if random.below(16) == 0 { usize::MAX - random.below(2) } else { random.below(count + 1) }
}

/// Every call on words, into buffers of about the exact size, and the report into larger ones.
fn compare_words(random: &mut Random, words: &[u64], n: usize, ticks: usize, review: u128) {
    let day = Handed::reviewing(words, n, ticks, review);
    let mut room = |answer: Result<Vec<u8>, _>| near(random, answer.map_or(40, |bytes| bytes.len()));
    _ = day.write(room(day.log()));
    _ = day.report(room(day.groups(PLAIN)));
    // about as much as any report of such a day takes
    let most = ward::report_bytes(n, ticks);
    _ = day.report(near(random, most));
    assert!(day.groups(PLAIN).map_or(0, |bytes| bytes.len()) <= most);
    let least = random_least(random, n, ticks);
    let room = near(random, day.groups(least).map_or(40, |bytes| bytes.len()));
    _ = day.filtered(least, room);
    let (first, last) = (about_below(random, ticks.min(96)), about_below(random, ticks.min(96)));
    let room = near(random, n.min(128));
    _ = day.core_numbers(first, last, room);
    let (query, parts) = (random_query(random, n, review), random_parts(random, ticks));
    let room = near(random, record_size(n) * (1 + parts.min(96)) + 6);
    _ = day.plan(query, parts, room);
    let (index, start) = (about_below(random, n.min(128)), about_below(random, ticks.min(96)));
    let room = near(random, 2 * n.min(128));
    _ = day.trace(index, start, room);
}

/// Up to one more than there are ticks.
fn random_parts(random: &mut Random, ticks: usize) -> usize {
    if random.below(32) == 0 { usize::MAX } else { random.below(ticks.min(96) + 2) }
}

/// A random day, one of pairs that meet by chance or one of teams, with words after it; in half of the cases damaged, or handed over with another
/// size or too few words. All badges are under review in half of the cases, and else any.
fn compare_random_day(random: &mut Random, n: usize, ticks: usize) {
    let (density, keep) = (random.below(101), random.below(101));
    let day = if random.below(2) == 0 { random_day(random, n, ticks, density, keep) } else { random_teams(random, n, ticks) };
    let mut words = day.words();
    words.extend((0..random.below(3)).map(|_| random.next()));
    let (mut handed_n, mut handed_ticks) = (n, ticks);
    match random.below(8) {
        0 => {
            let at = random.below(words.len());
            words[at] ^= 1 << random.below(64);
        }
        1 => words.truncate(random.below(words.len() + 1)),
        2 => handed_n = [0, 129, usize::MAX, n + 1][random.below(4)],
        3 => handed_ticks = [0, 97, usize::MAX, ticks + 1][random.below(4)],
        _ => {}
    }
    let review = if random.below(2) == 0 { full(handed_n.min(128)) } else { random_review(random, handed_n) };
    compare_words(random, &words, handed_n, handed_ticks, review);
}

#[test]
fn days() {
    let mut random = Random(4);
    for i in 0..60_000 {
        let (n, ticks) = match i % 50 {
            0 => (1 + random.below(24), 1 + random.below(20)),
            10 | 20 | 30 => (about_whole_words(&mut random), 1 + random.below(5)),
            40 => (1 + random.below(128), 1 + random.below(5)),
            _ => (1 + random.below(8), 1 + random.below(7)),
        };
        compare_random_day(&mut random, n, ticks);
    }
    all_seen("write", &[8, 9, 10, 11, 15]);
    all_seen("core numbers", &[8, 9, 10, 11, 12, 20]);
    all_seen("report", &[8, 9, 10, 11, 17, 20]);
    all_seen("plan", &[8, 9, 10, 11, 13, 14, 20, 21]);
    all_seen("trace", &[8, 9, 10, 11, 22]);
}

/// Every number of ticks and every number of badges, those about a whole number of words twice.
#[test]
fn days_of_all_sizes() {
    let mut random = Random(5);
    for n in (1..=128).chain(60..=70).chain(120..=128) {
        let ticks = 1 + 7 * n % 96;
        compare_random_day(&mut random, n, ticks);
    }
}

/// With all badges under review, and with some: days of pairs that meet by chance, and of teams.
#[test]
fn largest_days() {
    let mut random = Random(6);
    for n in [64, 128] {
        let by_chance = [(1, 0), (1, 80), (5, 80), (50, 0), (90, 80), (100, 100), (0, 0)];
        let days = by_chance.map(|(density, keep)| random_day(&mut random, n, 96, density, keep));
        let teams: [_; 2] = std::array::from_fn(|_| random_teams(&mut random, n, 96));
        for day in days.iter().chain(&teams) {
            compare_words(&mut random, &day.words(), n, 96, full(n));
            let review = reviewable(&mut random, n);
            compare_words(&mut random, &day.words(), n, 96, review);
        }
    }
}
