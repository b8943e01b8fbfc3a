//! Refusals of join: 18, the logs' own by 1 to 7, 19 and 8, one at a time, and several at once, where the first in the order of judging is given. The
//! numbers are written by hand.

use crate::model::Refusal;
use crate::support::calls::join;
use crate::support::d1::{TIDY, WORDS};
use crate::support::receivers::join_all;
use crate::support::refused_logs;
use crate::support::seen::all_seen;

const HUGE: usize = usize::MAX;

/// 18, by the number of logs, over as many bytes as the lengths add up to: none, one, five, six, and numbers whose last byte or two are 0 to 4.
#[test]
fn number_of_logs() {
    for count in [0, 1, 5, 6, 256, 257, 258, 259, 260, 65538] {
        for quorum in [0, 1, 2, count, count + 1, HUGE] {
            let lengths: Vec<usize> = (0..count).map(|k| if k < 2 { 34 } else { 0 }).collect();
            let logs = &[&TIDY[..], TIDY].concat()[..lengths.iter().sum()];
            assert_eq!(join(logs, &lengths, quorum, 24, 120), Err((18, 0)));
        }
    }
    for count in [1, 5, 6] {
        assert_eq!(join_all(&vec![TIDY; count], 1, 24, 144), Err((18, 0)));
    }
}

/// 18, by a quorum that is not 1 to the number of logs: D1 of each number of receivers, with each quorum up to 300, and with large ones.
#[test]
fn quorums() {
    for count in 2..=4 {
        let logs = vec![TIDY; count];
        for quorum in (0..=300).chain([(1 << 16) + 1, (1 << 32) + 1, 1 << 63, HUGE - 1, HUGE]) {
            let expected = if quorum < 1 || quorum > count { Err((18, 0)) } else { Ok((4, 3, WORDS[..24].to_vec())) };
            assert_eq!(join_all(&logs, quorum, 24, 96), expected);
        }
    }
}

/// Lengths that do not add up to the 68 bytes of D1 twice: one less and one more, lengths that differ far from the last bits, and sums of 2^64 and 68, of
/// twice 2^64 and 68, and of 2^32 and 68.
const NOT_68: &[&[usize]] = &[
    &[34, 33],
    &[33, 34],
    &[34, 35],
    &[35, 34],
    &[0, 0],
    &[68, 68],
    &[34, 34, 34],
    &[34, 34, 1],
    &[34, 33, 0, 0],
    &[34 + (1 << 8), 34],
    &[34, 34 + (1 << 16)],
    &[34 + (1 << 32), 34],
    &[34, 34 + (1 << 63)],
    &[(1 << 32) - 1, 69],
    &[HUGE, 69],
    &[69, HUGE],
    &[34, HUGE, 35],
    &[34, 34, 1, HUGE],
    &[34, 34, 1 << 63, 1 << 63],
    &[1 << 63, 1 << 63, 34, 34],
    &[HUGE, HUGE, 36, 34],
    &[HUGE, HUGE],
    &[HUGE, HUGE, HUGE, HUGE],
];

#[test]
fn lengths_that_do_not_add_up() {
    let logs = [&TIDY[..], TIDY].concat();
    for lengths in NOT_68 {
        for quorum in [1, 2] {
            assert_eq!(join(&logs, lengths, quorum, 24, 96), Err((18, 0)), "{lengths:?}");
        }
    }
    assert_eq!(join(TIDY, &[HUGE, 35], 1, 24, 48), Err((18, 0)));
    assert_eq!(join(b"", &[HUGE, 1], 1, 24, 48), Err((18, 0)));
    assert_eq!(join(b"", &[1 << 63, 1 << 63], 1, 24, 48), Err((18, 0)));
}

/// Each log that is refused, in each place among logs of D1: its offset counts from the start of the first. Logs after it do not matter.
#[test]
fn refused_logs_in_every_place() {
    for (refusal, log) in refused_logs::all() {
        for count in 2..=4 {
            for place in 0..count {
                let mut logs = vec![&TIDY[..]; count];
                logs[place] = log;
                let refusal = Err((refusal.0, 34 * place + refusal.1));
                assert_eq!(join_all(&logs, 1, 24, 96), refusal, "{log:?}");
                logs[count - 1] = if place + 1 < count { b"X" } else { log };
                assert_eq!(join_all(&logs, 1, 0, 0), refusal, "{log:?}");
            }
        }
    }
    all_seen("join", &[1, 2, 3, 4, 6, 7]);
}

/// A length of 0 is a length: that log is cut short where it would start.
#[test]
fn empty_logs() {
    let logs = [&TIDY[..], TIDY, TIDY, TIDY].concat();
    for (lengths, offset) in
        [(&[34, 0, 34][..], 34), (&[0, 34], 0), (&[34, 0], 34), (&[34, 34, 0, 0], 68), (&[34, 34, 34, 0], 102), (&[0, 34, 34, 34], 0)]
    {
        assert_eq!(join(&logs[..lengths.iter().sum()], lengths, 1, 24, 96), Err((1, offset)));
    }
    for count in 2..=4 {
        assert_eq!(join(b"", &vec![0; count], 1, 0, 0), Err((1, 0)));
    }
}

/// D1's log with a byte of its header changed: one tick more, one badge more.
const ONE_TICK_MORE: &[u8] = b"BH\x04\x04CT\x00\x01\x00\x01CT\x00\x02\x00\x01CT\x01\x02\x00\x01CT\x02\x03\x00\x02ED\x04\x00\x00\x00";
const ONE_BADGE_MORE: &[u8] = b"BH\x05\x03CT\x00\x01\x00\x01CT\x00\x02\x00\x01CT\x01\x02\x00\x01CT\x02\x03\x00\x02ED\x04\x00\x00\x00";

/// 19: a log in any place has another n or T than the others; also where n×T is the same.
#[test]
fn different_shifts() {
    for other in [ONE_TICK_MORE, ONE_BADGE_MORE, b"BH\x03\x04ED\x00\x00\x00\x00", b"BH\x04\x02ED\x00\x00\x00\x00", b"BH\x80\x60ED\x00\x00\x00\x00"] {
        for count in 2..=4 {
            for place in 0..count {
                let mut logs = vec![&TIDY[..]; count];
                logs[place] = other;
                for (lent, work) in [(24576, 98304), (24, 24 * count), (0, 0)] {
                    assert_eq!(join_all(&logs, 1, lent, work), Err((19, 0)));
                }
            }
        }
        assert_eq!(join_all(&[other, TIDY, other, TIDY], 2, 24576, 98304), Err((19, 0)));
        assert_eq!(join_all(&[other; 3], 2, 24576, 98304).map(|day| [day.0, day.1]), Ok([other[2], other[3]].map(usize::from)));
    }
}

/// 8: fewer than 2×n×T words are lent, or fewer work words than that for each log. The smallest day, D1, and large ones.
#[test]
fn too_few_words() {
    let largest: [&[u8]; 2] = [b"BH\x40\x60ED\x00\x00\x00\x00", b"BH\x80\x60ED\x00\x00\x00\x00"];
    let days = [(&b"BH\x01\x01ED\x00\x00\x00\x00"[..], 2), (TIDY, 24), (largest[0], 12288), (largest[1], 24576)];
    for (log, size) in days {
        for count in 2..=4 {
            let logs = vec![log; count];
            let work = count * size;
            for (lent, work) in [(size - 1, work), (size, work - 1), (size - 1, work - 1), (0, work), (size, 0), (0, 0), (size, work - size)] {
                assert_eq!(join_all(&logs, count, lent, work), Err((8, 0)));
            }
            assert_eq!(join_all(&logs, count, size - 1, work + 1), Err((8, 0)));
            assert_eq!(join_all(&logs, count, work, work - 1), Err((8, 0)));
            assert_eq!(join_all(&logs, count, size, work).map(|day| day.2.len()), Ok(size));
        }
    }
}

/// A log with a contact of a badge with itself, and one that is cut short.
const REFUSED: &[u8] = b"BH\x04\x03CT\x02\x02\x00\x00ED\x01\x00\x00\x00";
const CUT: &[u8] = b"BH\x04\x03CT\x00\x01";

/// Logs, quorum, how many words and work words are lent; the number and the offset. Two rules are broken, and more.
type Case = (&'static [&'static [u8]], usize, usize, usize, Refusal);

const SEVERAL: &[Case] = &[
    (&[REFUSED], 1, 24, 96, (18, 0)),
    (&[TIDY, TIDY, TIDY, TIDY, REFUSED], 1, 24, 120, (18, 0)),
    (&[REFUSED, TIDY], 0, 24, 48, (18, 0)),
    (&[TIDY, REFUSED], 3, 24, 48, (18, 0)),
    (&[TIDY, b""], 3, 24, 48, (18, 0)),
    (&[TIDY, ONE_TICK_MORE], 3, 199, 199, (18, 0)),
    (&[TIDY, TIDY], 0, 0, 0, (18, 0)),
    (&[TIDY], 2, 0, 0, (18, 0)),
    (&[CUT, ONE_TICK_MORE, REFUSED], HUGE, 0, 0, (18, 0)),
    (&[CUT, REFUSED], 1, 24, 48, (1, 4)),
    (&[REFUSED, CUT], 1, 24, 48, (4, 4)),
    (&[TIDY, REFUSED, CUT], 1, 24, 72, (4, 38)),
    (&[TIDY, CUT, REFUSED], 1, 24, 72, (1, 38)),
    (&[ONE_TICK_MORE, REFUSED], 1, 199, 199, (4, 38)),
    (&[TIDY, ONE_TICK_MORE, REFUSED], 1, 199, 199, (4, 72)),
    (&[TIDY, ONE_BADGE_MORE, TIDY, CUT], 1, 199, 199, (1, 106)),
    (&[TIDY, ONE_BADGE_MORE, b""], 1, 199, 199, (1, 68)),
    (&[TIDY, REFUSED], 2, 0, 0, (4, 38)),
    (&[TIDY, ONE_TICK_MORE, REFUSED], 1, 0, 0, (4, 72)),
    (&[TIDY, ONE_TICK_MORE], 1, 23, 48, (19, 0)),
    (&[TIDY, ONE_TICK_MORE], 1, 24, 47, (19, 0)),
    (&[ONE_BADGE_MORE, TIDY, TIDY], 3, 0, 0, (19, 0)),
];

#[test]
fn several_rules_broken() {
    for &(logs, quorum, lent, work, refusal) in SEVERAL {
        assert_eq!(join_all(logs, quorum, lent, work), Err(refusal));
    }
    // lengths that do not add up, over logs that are refused
    assert_eq!(join(&[REFUSED, TIDY].concat(), &[16, 35], 1, 24, 48), Err((18, 0)));
    assert_eq!(join(&[CUT, REFUSED].concat(), &[0, 0], 1, 0, 0), Err((18, 0)));
    assert_eq!(join(&[TIDY, ONE_TICK_MORE].concat(), &[34, 33], 1, 199, 199), Err((18, 0)));
    all_seen("join", &[1, 4, 18, 19]);
}
