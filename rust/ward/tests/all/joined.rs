//! The joined day: laws of its words over random logs, and what the calls on words make of it.

use crate::model::{log_bytes, words_for};
use crate::support::days::{about_whole_words, day_by, log_of, runs_by_pair, runs_by_tick, words_of_runs};
use crate::support::handed::Handed;
use crate::support::random::Random;
use crate::support::receivers::{join_all, random_receivers};
use crate::support::seen::all_seen;
use crate::tidying::settles;

/// The words that join leaves of these logs.
fn words_joined(logs: &[impl AsRef<[u8]>], quorum: usize) -> Vec<u64> {
    let log = logs[0].as_ref();
    let size = words_for(log[2].into(), log[3].into());
    join_all(logs, quorum, size, logs.len() * size).expect("a day").2
}

/// The words that read leaves of a log.
fn words_read(log: &[u8]) -> Vec<u64> {
    let mut words = vec![0; words_for(log[2].into(), log[3].into())];
    ward::read(log, &mut words).expect("a good log");
    words
}

/// A law of the logs of receivers of a random day, for many of them, mostly small ones.
fn for_random_receivers(seed: u64, law: impl Fn(&mut Random, &[Vec<u8>])) {
    let mut random = Random(seed);
    for i in 0..1000 {
        let (n, ticks) = match i % 50 {
            0 => (1 + random.below(24), 1 + random.below(24)),
            25 => (about_whole_words(&mut random), 1 + random.below(5)),
            _ => (1 + random.below(8), 1 + random.below(8)),
        };
        let logs = random_receivers(&mut random, n, ticks, 2000);
        law(&mut random, &logs);
    }
}

#[test]
fn order_of_the_logs() {
    for_random_receivers(81, |random, logs| {
        let mut others = logs.to_vec();
        for k in 0..others.len() {
            others.swap(k, random.below(k + 1));
        }
        for quorum in 1..=logs.len() {
            assert_eq!(words_joined(&others, quorum), words_joined(logs, quorum));
        }
    });
}

/// A larger quorum adds no contact. At 1 they are what any receiver heard, and at the number of logs what all heard.
#[test]
fn larger_quorums() {
    for_random_receivers(82, |_, logs| {
        let joined: Vec<Vec<u64>> = (1..=logs.len()).map(|quorum| words_joined(logs, quorum)).collect();
        for pair in joined.windows(2) {
            assert!(pair[0].iter().zip(&pair[1]).all(|(smaller, larger)| larger & !smaller == 0));
        }
        let each: Vec<Vec<u64>> = logs.iter().map(|log| words_read(log)).collect();
        for place in 0..joined[0].len() {
            assert_eq!(joined[0][place], each.iter().fold(0, |any, words| any | words[place]));
            assert_eq!(joined[logs.len() - 1][place], each.iter().fold(u64::MAX, |all, words| all & words[place]));
        }
    });
}

/// As many copies of a log as there may be, at every quorum: what read makes of it.
#[test]
fn copies_of_one_log() {
    for_random_receivers(83, |_, logs| {
        for count in 2..=4 {
            for quorum in 1..=count {
                assert_eq!(words_joined(&vec![&logs[0]; count], quorum), words_read(&logs[0]));
            }
        }
    });
}

/// The log that has the records of all logs together.
fn one_log_of(logs: &[Vec<u8>]) -> Vec<u8> {
    let records = logs.iter().flat_map(|log| log[4..log.len() - 6].chunks(6));
    log_bytes(logs[0][2], logs[0][3], &records.map(|record| [record[2], record[3], record[4], record[5]]).collect::<Vec<_>>())
}

/// At 1 the logs are as good as one log that has all their records, no more than 8,000: also of the largest days.
#[test]
fn all_records_in_one_log() {
    for_random_receivers(84, |_, logs| assert_eq!(words_joined(logs, 1), words_read(&one_log_of(logs))));
    let mut random = Random(85);
    for n in [64, 128].repeat(8) {
        let logs = random_receivers(&mut random, n, 96, 2000);
        assert_eq!(words_joined(&logs, 1), words_read(&one_log_of(&logs)));
    }
}

/// The ticks of a trace of a day's words, from the last badge at the first tick.
fn ticks_reached(words: &[u64], n: usize) -> Vec<u8> {
    let mut trace = vec![0; 2 * n];
    assert_eq!(ward::trace(words, n, words.len() / (2 * n), n - 1, 0, &mut trace), Ok(2 * n));
    trace.truncate(n);
    trace
}

/// At 1 a badge is reached as in one log that has all the records; at a larger quorum nobody is reached sooner.
#[test]
fn traces_of_joined_days() {
    for_random_receivers(87, |_, logs| {
        let n = logs[0][2] as usize;
        let reached: Vec<Vec<u8>> = (1..=logs.len()).map(|quorum| ticks_reached(&words_joined(logs, quorum), n)).collect();
        assert_eq!(reached[0], ticks_reached(&words_read(&one_log_of(logs)), n));
        for pair in reached.windows(2) {
            assert!(pair[0].iter().zip(&pair[1]).all(|(smaller, larger)| smaller <= larger));
        }
    });
}

/// Every call on words takes the words of a joined day. Write may refuse it by 15, and else gives a log that reads as the same words.
fn is_taken(words: &[u64], n: usize, ticks: usize, queries: &[u128]) {
    let day = Handed::new(words, n, ticks);
    match day.write(ward::LOG_BYTES) {
        Ok(log) => {
            settles(&log);
            assert_eq!(words_read(&log), words);
        }
        Err(refusal) => assert_eq!(refusal, (15, 0)),
    }
    assert!(day.report(ward::report_bytes(n, ticks)).is_ok());
    for (first, last) in [(0, ticks - 1), (0, 0), (ticks / 2, ticks / 2)] {
        assert!(day.core_numbers(first, last, n).is_ok());
    }
    for (index, start) in [(0, 0), (n - 1, ticks / 2)] {
        assert!(day.trace(index, start, 2 * n).is_ok());
    }
    for query in queries {
        assert!(day.plan(*query, 1 + ticks / 2, ward::PLAN_BYTES).is_ok());
    }
}

#[test]
fn days_of_random_receivers() {
    for_random_receivers(86, |random, logs| {
        let (n, ticks) = (logs[0][2] as usize, logs[0][3] as usize);
        let quorum = 1 + random.below(logs.len());
        is_taken(&words_joined(logs, quorum), n, ticks, &[0, 1, 1 << random.below(n)]);
    });
}

/// Write refuses a day of n badges and 96 ticks exactly where it has more than 8,000 runs.
fn has_runs(words: &[u64], n: usize, count: usize) {
    let refused = Handed::new(words, n, 96).write(ward::LOG_BYTES).err();
    assert_eq!(refused, (count > 8000).then_some((15, 0)));
}

/// Two receivers that hear so many runs of one tick each, none of them the same: one of them heard all, and both none.
#[test]
fn more_runs_than_a_log_can_have() {
    let contacts = |runs: &[(usize, usize, usize)]| runs.iter().map(|&(t, u, v)| [u, v, t, t].map(|x| x as u8)).collect::<Vec<_>>();
    for (n, first, second) in [(64, 4000, 4000), (64, 1, 8000), (64, 8000, 8000), (64, 5000, 5000), (128, 4000, 4001), (128, 5000, 5000)] {
        for runs in [runs_by_pair(n).take(first + second).collect::<Vec<_>>(), runs_by_tick(n).take(first + second).collect()] {
            let logs = [&runs[..first], &runs[first..]].map(|runs| log_bytes(n as u8, 96, &contacts(runs)));
            let words = words_joined(&logs, 1);
            assert_eq!(words, words_of_runs(n, runs.into_iter()));
            has_runs(&words, n, first + second);
            assert_eq!(words_joined(&logs, 2), vec![0; words_for(n, 96)]);
            if first == 5000 {
                is_taken(&words, n, 96, &[0, 1 << 8]);
            }
        }
    }
    all_seen("write", &[15]);
}

/// 320 pairs, of which one receiver misses ticks 1, 5, 9 and so on, and another ticks 3, 7, 11 and so on: 25 runs a pair, and 24. Both heard every other
/// tick, which makes 48 runs a pair, and one of them every tick, which makes one.
#[test]
fn more_runs_than_either_log_has() {
    let but = |missed: usize| day_by(128, 96, |t, u, v| (60..80).contains(&u) && (80..96).contains(&v) && t % 4 != missed);
    let logs = [but(1), but(3)].map(|day| log_of(&day));
    assert_eq!(logs.each_ref().map(Vec::len), [10 + 6 * 25 * 320, 10 + 6 * 24 * 320]);
    let words = words_joined(&logs, 2);
    has_runs(&words, 128, 48 * 320);
    is_taken(&words, 128, 96, &[0, 1 << 80]);
    has_runs(&words_joined(&logs, 1), 128, 320);
    all_seen("write", &[15]);
}
