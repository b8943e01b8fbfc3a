//! Tidy and write: logs and days whose answers are written by hand.

use crate::model;
use crate::support::calls::{read, tidy};
use crate::support::d1::{MESSY, TIDY, WORDS, d1};
use crate::support::days::{runs_by_pair, runs_by_tick, words_of_runs};
use crate::support::handed::Handed;
use crate::support::logs::{all_in_contact, long, random_log, with_one_byte_changed};
use crate::support::random::Random;
use crate::support::refused_logs;
use crate::support::seen::all_seen;
use std::collections::BTreeSet;

/// A tidy log tidies to itself, and reads as a day with as many contacts as it has records.
pub fn settles(tidied: &[u8]) {
    let words = model::words_for(tidied[2].into(), tidied[3].into());
    assert_eq!(tidy(tidied, words, tidied.len()), Ok(tidied.to_vec()));
    assert_eq!(read(tidied, words).map(|day| 10 + 6 * day.2), Ok(tidied.len()));
}

/// Both logs of D1, and its words with others after them, give the same 34 bytes, in buffers of every length.
#[test]
fn d1_into_every_buffer() {
    for room in (0..=60).chain([48100]) {
        let expected = if room < 34 { Err((9, 0)) } else { Ok(TIDY.to_vec()) };
        for (log, lent) in [(&TIDY[..], 24), (TIDY, 26), (TIDY, 24600), (MESSY, 24), (MESSY, 26), (MESSY, 24600)] {
            assert_eq!(tidy(log, lent, room), expected);
        }
        for lent in [24, 26] {
            assert_eq!(d1(lent).write(room), expected);
        }
    }
    settles(TIDY);
}

#[test]
fn d1_with_one_byte_changed() {
    for changed in with_one_byte_changed(MESSY) {
        if let Ok(tidied) = tidy(&changed, 800, 60) {
            settles(&tidied);
        }
    }
}

/// The log of a full day, with the larger badges first; logs of 8,000 contacts, random ones, and the same few from either side.
#[test]
fn most_contacts() {
    for (n, len) in [(64, 12106), (65, 12490), (126, 47260)] {
        assert_eq!(tidy(&all_in_contact(n), 2 * n * 96, len).map(|log| log.len()), Ok(len));
    }
    for n in [64, 128] {
        let tidied = tidy(&random_log(&mut Random(12), n, 10, 8000), 20 * n, 48100);
        settles(&tidied.expect("a tidy log"));
    }
    for (n, ticks, len) in [(2, 1, 16), (4, 3, 34)] {
        let log = long(n, ticks, 8000);
        assert_eq!(tidy(&log, 12300, len).map(|log| log.len()), Ok(len));
        assert_eq!(tidy(&log, 12300, len - 1), Err((9, 0)));
    }
    assert_eq!(tidy(&long(4, 3, 8001), 80, 60), Err((5, 48004)));
}

/// Logs of 8,000 runs, in any order and from either side: as many contacts come out as came in, the most that a log can have. With the ticks between
/// them bridged, the runs of each pair become one.
#[test]
fn as_many_as_came_in() {
    let mut random = Random(16);
    let of = |n: usize| [runs_by_pair(n).take(8000).collect::<Vec<_>>(), runs_by_tick(n).take(8000).collect()].map(|runs| (n, runs));
    for (n, runs) in of(64).into_iter().chain(of(128)) {
        let (badges, words) = (n as u8, 2 * n * 96);
        let mut contacts: Vec<[u8; 4]> = runs.iter().map(|&(t, u, v)| [u, v, t, t].map(|x| x as u8)).collect();
        contacts.sort();
        let tidied = model::log_bytes(badges, 96, &contacts);
        for k in 0..contacts.len() {
            contacts.swap(k, random.below(k + 1));
            let [a, b, first, last] = contacts[k];
            contacts[k] = if random.below(2) == 0 { [a, b, first, last] } else { [b, a, first, last] };
        }
        let log = model::log_bytes(badges, 96, &contacts);
        assert_eq!((log.len(), tidied.len()), (48010, 48010));
        assert_eq!(tidy(&log, words, 48009), Err((9, 0)));
        assert_eq!(tidy(&log, words, 48010), Ok(tidied));
        let bridged: Vec<[u8; 4]> = contacts.iter().map(|&[a, b, first, _]| [a, b, first, first + 1]).collect();
        let pairs = runs.iter().map(|&(_, u, v)| (u, v)).collect::<BTreeSet<_>>().len();
        assert_eq!(tidy(&model::log_bytes(badges, 96, &bridged), words, 48010).map(|log| log.len()), Ok(10 + 6 * pairs));
    }
    all_seen("tidy", &[9]);
}

/// A day of so many runs: 8,000 fill a log of 48,010 bytes; more are refused by 15, before any buffer is too short.
fn compare_runs(n: usize, words: &[u64], count: usize) {
    let day = Handed::new(words, n, 96);
    for room in [48100, 48010, 48009, 48004, 48003, 0] {
        let len = if count > 8000 { Err((15, 0)) } else { Ok(10 + 6 * count) };
        assert_eq!(day.write(room).map(|log| log.len()), len.and_then(|len| if room < len { Err((9, 0)) } else { Ok(len) }));
    }
    if let Ok(log) = day.write(48010) {
        settles(&log);
    }
}

#[test]
fn most_runs() {
    for n in [64, 128] {
        for count in [7999, 8000, 8001, 20000] {
            compare_runs(n, &words_of_runs(n, runs_by_pair(n).take(count)), count);
            compare_runs(n, &words_of_runs(n, runs_by_tick(n).take(count)), count);
        }
        compare_runs(n, &words_of_runs(n, runs_by_tick(n)), n * (n - 1) / 2 * 48);
    }
    all_seen("write", &[9, 15]);
}

/// All refusals of tidy but 5, above: 1 to 7, 8, 9, in this order.
#[test]
fn tidy_refusals() {
    for (refusal, log) in refused_logs::all() {
        for (lent, room) in [(800, 60), (0, 0)] {
            assert_eq!(tidy(log, lent, room), Err(*refusal), "{log:?}");
        }
    }
    for (lent, room) in [(23, 60), (23, 33), (12, 60), (0, 0)] {
        assert_eq!(tidy(TIDY, lent, room), Err((8, 0)));
    }
    for (lent, room) in [(24, 33), (40, 0)] {
        assert_eq!(tidy(MESSY, lent, room), Err((9, 0)));
    }
    for (empty, words) in [(b"BH\x40\x60ED\x00\x00\x00\x00", 12288), (b"BH\x80\x60ED\x00\x00\x00\x00", 24576)] {
        assert_eq!(tidy(empty, words - 1, 9), Err((8, 0)));
        assert_eq!(tidy(empty, words, 9), Err((9, 0)));
        assert_eq!(tidy(empty, words, 10), Ok(empty.to_vec()));
    }
    assert_eq!(tidy(b"BH\x04\x03CT\x00\x01\x00\x01ED\x02\x00\x00\x00", 23, 0), Err((6, 10)));
    assert_eq!(tidy(b"BH\x04\x03ED\x00\x00\x00\x00X", 0, 0), Err((7, 10)));
    all_seen("tidy", &[1, 2, 3, 4, 6, 7, 8, 9]);
}

/// 10, 8, 11, 15 and 9, each with all later ones that can go with it.
#[test]
fn write_refusals() {
    for n in [64, 128] {
        let mut words = words_of_runs(n, runs_by_pair(n).take(8001));
        assert_eq!(Handed::new(&words, n, 96).write(0), Err((15, 0)));
        let all = words.len();
        words[all - 1] = 1;
        let huge = usize::MAX;
        let broken = [(all, n, 96, 0, 11), (all, n, 96, 48100, 11), (all - 1, n, 96, 0, 8), (all - 1, n, 97, 0, 10), (all, 129, 96, 0, 10)];
        for (lent, n, ticks, room, number) in broken.into_iter().chain([(all, 0, 96, 0, 10), (all, n, 0, 60, 10), (0, huge, huge, 60, 10)]) {
            assert_eq!(Handed::new(&words[..lent], n, ticks).write(room), Err((number, 0)));
        }
    }
    for (lent, n, ticks, room, number) in [(0, 4, 3, 0, 8), (23, 4, 3, 60, 8), (26, 3, 4, 0, 11), (24, 4, 3, 33, 9)] {
        assert_eq!(Handed::new(&WORDS[..lent], n, ticks).write(room), Err((number, 0)));
    }
    assert_eq!(Handed::new(&[0, 0], 1, 1).write(9), Err((9, 0)));
    assert_eq!(Handed::new(&[0, 0], 1, 1).write(10), Ok(model::log_bytes(1, 1, &[])));
}
