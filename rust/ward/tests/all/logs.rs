//! Read: logs whose answers are written by hand.

use crate::support::calls::read;
use crate::support::d1::{MESSY, TIDY, WORDS};
use crate::support::logs::{all_in_contact, long, put_contact, random_log, with_one_byte_changed};
use crate::support::random::Random;
use crate::support::refused_logs;
use crate::support::seen::all_seen;

#[test]
fn d1() {
    for (log, contacts) in [(&TIDY[..], 4), (&MESSY[..], 5)] {
        for lent in [24, 26, 24600] {
            assert_eq!(read(log, lent), Ok((4, 3, contacts)));
        }
        for lent in 0..24 {
            assert_eq!(read(log, lent), Err((8, 0)));
        }
        let mut words = [7; 26];
        assert_eq!(ward::read(log, &mut words), Ok(ward::Day { badges: 4, ticks: 3, contacts }));
        assert_eq!((&words[..24], &words[24..]), (&WORDS[..24], &[7, 7][..]));
    }
}

#[test]
fn empty_file() {
    for lent in [0, 24] {
        assert_eq!(read(b"", lent), Err((1, 0)));
    }
}

#[test]
fn refusals() {
    for (refusal, log) in refused_logs::all() {
        for lent in [0, 40] {
            assert_eq!(read(log, lent), Err(*refusal), "{log:?}");
        }
    }
    all_seen("read", &[1, 2, 3, 4, 6, 7]);
}

/// The least n and T, the last tick of a day, and the largest day, with just enough words and more.
#[test]
fn at_the_limits() {
    assert_eq!(read(b"BH\x01\x01ED\x00\x00\x00\x00", 40), Ok((1, 1, 0)));
    assert_eq!(read(b"BH\x04\x03CT\x03\x00\x02\x02ED\x01\x00\x00\x00", 40), Ok((4, 3, 1)));
    for more in [0, 60] {
        assert_eq!(read(b"BH\x40\x60ED\x00\x00\x00\x00", 12288 + more), Ok((64, 96, 0)));
        assert_eq!(read(b"BH\x41\x60ED\x00\x00\x00\x00", 12480 + more), Ok((65, 96, 0)));
        assert_eq!(read(b"BH\x80\x60ED\x00\x00\x00\x00", 24576 + more), Ok((128, 96, 0)));
    }
}

/// 8: fewer than 2×n×T words are lent, whatever n is. A fault of the log comes first.
#[test]
fn too_few_words() {
    assert_eq!(read(b"BH\x04\x03ED\x00\x00\x00\x00", 23), Err((8, 0)));
    assert_eq!(read(b"BH\x04\x03ED\x00\x00\x00\x00", 12), Err((8, 0)));
    assert_eq!(read(b"BH\x01\x01ED\x00\x00\x00\x00", 1), Err((8, 0)));
    assert_eq!(read(b"BH\x01\x01ED\x00\x00\x00\x00", 0), Err((8, 0)));
    for lent in [0, 6144, 12287] {
        assert_eq!(read(b"BH\x40\x60ED\x00\x00\x00\x00", lent), Err((8, 0)));
    }
    for lent in [0, 12288, 24575] {
        assert_eq!(read(b"BH\x80\x60ED\x00\x00\x00\x00", lent), Err((8, 0)));
    }
    assert_eq!(read(b"BH\x04\x03ED\x01\x00\x00\x00", 23), Err((6, 4)));
    assert_eq!(read(b"BH\x04\x03ED\x00\x00\x00\x00X", 0), Err((7, 10)));
}

/// Cut short at every length: by the record in which the log ends.
#[test]
fn prefixes_of_d1() {
    for log in [&TIDY[..], &MESSY[..]] {
        for len in 0..log.len() {
            let record = if len < 4 { 0 } else { 4 + (len - 4) / 6 * 6 };
            assert_eq!(read(&log[..len], 40), Err((1, record)));
        }
    }
}

/// Every byte of D1's logs changed to every value, against the model. A change can make the day larger.
#[test]
fn d1_with_one_byte_changed() {
    for log in [&TIDY[..], &MESSY[..]] {
        for changed in with_one_byte_changed(log) {
            _ = read(&changed, 800);
        }
    }
    all_seen("read", &[2, 3, 4, 6]);
}

/// 8,000 contacts: the whole log of 48,010 bytes, cut in its last two records, and with bytes after it.
#[test]
fn most_contacts() {
    let mut log = long(4, 3, 8000);
    assert_eq!(log.len(), 48010);
    assert_eq!(read(&log, 40), Ok((4, 3, 8000)));
    assert_eq!(read(&log, 23), Err((8, 0)));
    for (len, offset) in [(48009, 48004), (48006, 48004), (48005, 48004), (48004, 48004), (48003, 47998)] {
        assert_eq!(read(&log[..len], 40), Err((1, offset)));
    }
    log.resize(48100, 0);
    assert_eq!(read(&log[..48011], 40), Err((7, 48010)));
    assert_eq!(read(&log, 40), Err((7, 48010)));
}

/// 8,000 contacts with other counts; and with a bad contact as the last of them, which is judged first.
#[test]
fn most_contacts_miscounted() {
    let mut log = long(4, 3, 8000);
    for count in [7999u32, 8000 + 65536] {
        log[48006..].copy_from_slice(&count.to_le_bytes());
        assert_eq!(read(&log, 40), Err((6, 48004)));
    }
    put_contact(&mut log, 7999, [1, 1, 0, 0]);
    assert_eq!(read(&log, 40), Err((4, 47998)));
}

/// 8,001 contacts: refused as soon as the mark of the last is there, whatever it is; a bad one before it is judged first.
#[test]
fn one_contact_more() {
    let mut log = long(4, 3, 8001);
    for len in [48016, 48010, 48008, 48006] {
        assert_eq!(read(&log[..len], 40), Err((5, 48004)));
    }
    assert_eq!(read(&log[..48005], 40), Err((1, 48004)));
    assert_eq!(read(&log, 0), Err((5, 48004)));
    put_contact(&mut log, 8000, [1, 1, 9, 0]);
    assert_eq!(read(&log, 40), Err((5, 48004)));
    put_contact(&mut log, 7999, [1, 1, 9, 0]);
    assert_eq!(read(&log, 40), Err((4, 47998)));
}

/// All in contact all day; and 8,000 random contacts of 64 badges, and of 128.
#[test]
fn days_of_full_size() {
    for (n, contacts) in [(64, 2016), (65, 2080), (126, 7875)] {
        assert_eq!(read(&all_in_contact(n), 24600), Ok((n, 96, contacts)));
        assert_eq!(read(&all_in_contact(n), 2 * n * 96 - 1), Err((8, 0)));
    }
    for n in [64, 128] {
        let log = random_log(&mut Random(11), n, 96, 8000);
        assert_eq!(read(&log, 24600), Ok((n, 96, 8000)));
    }
}
