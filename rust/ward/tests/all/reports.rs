//! The report: days whose bytes are written by hand.

use crate::support::d1::{d1, turned};
use crate::support::handed::Handed;
use crate::support::sets::words_of;

pub const D1: &[u8; 36] = b"RH\x04\x03\
    GR\x02\x00\x01\x07\x00\x00\x00\x00\x00\x00\x00\
    GR\x01\x00\x02\x0c\x00\x00\x00\x00\x00\x00\x00\
    ED\x02\x00\x00\x00";

/// Its first two ticks.
const D1_OF_TWO_TICKS: &[u8; 23] = b"RH\x04\x02\
    GR\x02\x00\x01\x07\x00\x00\x00\x00\x00\x00\x00\
    ED\x01\x00\x00\x00";

/// A buffer of every length up to 80.
#[test]
fn d1_into_every_buffer() {
    for room in 0..=80 {
        let report = if room < 36 { Err((9, 0)) } else { Ok(D1.to_vec()) };
        for lent in 24..=26 {
            assert_eq!(d1(lent).report(room), report);
        }
    }
}

/// Each bit of word 24 turned over, which is after D1's words; and of words 16 and 17, after the words of its first two ticks.
#[test]
fn words_after_the_day() {
    for v in 0..64 {
        assert_eq!(Handed::new(&turned(24, v)[..25], 4, 3).report(36), Ok(D1.to_vec()));
        for place in [16, 17] {
            assert_eq!(Handed::new(&turned(place, v)[..25], 4, 2).report(36), Ok(D1_OF_TWO_TICKS.to_vec()));
        }
    }
}

/// Three badges of which the first changes its partner: a group in each tick, and none on both.
#[test]
fn partner_that_changes() {
    let report = b"RH\x03\x02\
        GR\x01\x00\x00\x03\x00\x00\x00\x00\x00\x00\x00\
        GR\x01\x01\x01\x05\x00\x00\x00\x00\x00\x00\x00\
        ED\x02\x00\x00\x00";
    assert_eq!(Handed::new(&words_of(&[2, 1, 0, 4, 0, 1]), 3, 2).report(36), Ok(report.to_vec()));
}
