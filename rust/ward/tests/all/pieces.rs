//! The listing in pieces: buffers of many sizes, and calls from any place, also past the end.

use crate::model::{self, full};
use crate::support::d1::TIDY;
use crate::support::days::{all_but_three, away_once, day_by, groups_with_away_once, log_of};
use crate::support::digits::{MOST_LISTED, MOST_PAIRS, ONE_MORE, digit_groups, digit_log, wide_groups, wide_log};
use crate::support::lent::Lent;
use crate::support::listings::{Listing, walk};
use crate::support::probes;
use crate::support::random::Random;

/// D1's three lines of 92 bytes, a first line alone, and a refusal: from each of eight places, and from far past the end, in buffers of every length
/// up to 100.
#[test]
fn small_texts() {
    for log in [&TIDY[..], b"BH\x04\x03ED\x00\x00\x00\x00", b"BH\x04\x03CT\x00\x00\x00\x00"] {
        let listing = Listing::of_log(log, 40, 60);
        for from in (0..8).chain([5041, usize::MAX]) {
            for size in 0..=100 {
                listing.compare(log, 40, 60, from, size);
            }
        }
    }
}

/// A report that prepare left, in more bytes than it has, and the lines that it shows.
struct Prepared {
    size: usize,
    report: Vec<u8>,
    lines: Vec<String>,
}

impl Prepared {
    fn of(log: &[u8], listing: Listing) -> Prepared {
        let size = listing.prepared.expect("a report");
        let (mut words, mut report) = (vec![0; ward::WORDS], vec![0; size + 100]);
        let (prepared, _, _) = probes::listing(log, &mut words, &mut report, 0, &mut []);
        assert_eq!(prepared, Ok(size));
        Prepared { size, report, lines: listing.lines }
    }

    /// Compares the piece from a place on in a buffer of so many bytes. Gives the place of the next line.
    fn compare(&self, from: usize, size: usize) -> usize {
        let (mut report, mut out) = (Lent::holding(&self.report), Lent::room(size));
        let piece = probes::lines(self.size, report.slice(), from, out.slice());
        let (next, text) = model::piece(&self.lines, from, size);
        assert_eq!(piece, (Ok(self.size), next, text.len()));
        out.holds(text.as_bytes());
        report.is_unchanged();
        next
    }

    /// The whole text in pieces of many sizes; pieces from random places, at most a few past the end; and calls from the end and past it, which give
    /// 0 bytes and the same place.
    fn comes_in_pieces(&self) {
        // the first line of 2,078 groups, or of 5,040, has 31 bytes, the longest line of 64 badges 213, and that of any day 434
        for size in [0, 1, 30, 31, 32, 212, 213, 214, 433, 434, 435, 999, 1000, 1001, 20000, 65536] {
            walk(self.lines.len(), size, |from| self.compare(from, size));
        }
        let mut random = Random(61);
        for _ in 0..500 {
            self.compare(random.below(self.lines.len() + 5), random.below(1001));
        }
        let end = self.lines.len();
        for (from, size) in [(end, 434), (end + 1, 434), (end + 5041, 65536), (usize::MAX - 1, 1000), (usize::MAX, 0)] {
            assert_eq!(self.compare(from, size), from);
        }
    }
}

#[test]
fn one_group_of_64() {
    let day = day_by(64, 96, |_, _, _| true);
    Prepared::of(&log_of(&day), Listing::of_day(&day, &[(63, 0, 95, full(64))])).comes_in_pieces();
}

/// The longest line.
#[test]
fn one_group_of_128() {
    let day = all_but_three(96);
    Prepared::of(&log_of(&day), Listing::of_day(&day, &[(124, 10, 95, u128::MAX)])).comes_in_pieces();
}

#[test]
fn many_groups() {
    let day = away_once();
    Prepared::of(&log_of(&day), Listing::of_day(&day, &groups_with_away_once())).comes_in_pieces();
}

/// The longest listing, of 5,041 lines, and the lines of a report that is one record longer.
#[test]
fn most_groups() {
    let mut groups = digit_groups(64, 92, 3);
    for contacts in [MOST_LISTED, MOST_LISTED + 1] {
        let log = digit_log(64, contacts, 3);
        Prepared::of(&log, Listing::of_day(&model::judge(&log).expect("a log").0, &groups)).comes_in_pieces();
        groups.push(ONE_MORE);
    }
}

/// The longest listing of more than 64 badges, of 3,121 lines.
#[test]
fn most_groups_of_128_badges() {
    let log = wide_log(MOST_PAIRS);
    Prepared::of(&log, Listing::of_day(&model::judge(&log).expect("a log").0, &wide_groups(MOST_PAIRS))).comes_in_pieces();
}
