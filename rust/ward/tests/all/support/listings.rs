//! The listing of a log against what it has to be: what prepare answers and leaves, and the text, piece by piece.

use super::calls::day_of;
use super::lent::Lent;
use super::probes;
use crate::model::{self, Cores, Day, Record, Refusal, full};

/// The bytes of the longest line that any day has, of 128 badges and an order, a first and a last tick of as many digits as there can be.
pub const LONGEST_LINE: usize = 434;

/// What a listing has to be. The words and the report are those in front of what was lent; none where it is left as it was.
pub struct Listing {
    pub prepared: Result<usize, Refusal>,
    words: Vec<u64>,
    report: Vec<u8>,
    pub lines: Vec<String>,
}

impl Listing {
    fn refused(refusal: Refusal, words: Vec<u64>) -> Listing {
        Listing { prepared: Err(refusal), words, report: Vec::new(), lines: model::refusal_lines(refusal) }
    }

    /// That of a day with these groups.
    pub fn of_day(day: &Day, groups: &[Record]) -> Listing {
        let report = model::report_bytes(day.n, day.ticks, groups);
        Listing { prepared: Ok(report.len()), words: day.words(), report, lines: model::group_lines(day.n, day.ticks, groups) }
    }

    /// The model's of a log, lent so many words, and so many bytes for the report: all badges are under review.
    pub fn of_log(log: &[u8], lent: usize, room: usize) -> Listing {
        let day = match day_of(log, lent) {
            Err(refusal) => return Listing::refused(refusal, Vec::new()),
            Ok((day, _)) => day,
        };
        let listing = Listing::of_day(&day, &Cores::of(&day, full(day.n)).groups());
        if room < listing.report.len() { Listing::refused((9, 0), listing.words) } else { listing }
    }

    /// Prepares a log, lent so many words and bytes, and compares the piece from a place on in a buffer of so many bytes. Gives the place of the next
    /// line.
    pub fn compare(&self, log: &[u8], lent: usize, room: usize, from: usize, size: usize) -> usize {
        let (mut bytes, mut words, mut report, mut out) = (Lent::holding(log), Lent::room(lent), Lent::room(room), Lent::room(size));
        let piece = probes::listing(bytes.slice(), words.slice(), report.slice(), from, out.slice());
        let (next, text) = model::piece(&self.lines, from, size);
        assert_eq!(piece, (self.prepared, next, text.len()));
        out.holds(text.as_bytes());
        words.holds(&self.words);
        report.holds(&self.report);
        bytes.is_unchanged();
        next
    }

    /// The whole text of a log, in pieces of so many bytes.
    pub fn whole(&self, log: &[u8], lent: usize, room: usize, size: usize) -> String {
        walk(self.lines.len(), size, |from| self.compare(log, lent, room, from, size));
        self.lines.concat()
    }
}

/// Goes from piece to piece until there is no line left, or none that fits.
pub fn walk(lines: usize, size: usize, piece: impl Fn(usize) -> usize) {
    let mut from = 0;
    loop {
        let next = piece(from);
        if next == from {
            return assert!(size < LONGEST_LINE || from == lines, "the last line is reached");
        }
        from = next;
    }
}

/// The text of a log, lent so many words and bytes, in pieces of 1,000 bytes and of as many as the longest line has: the model's.
pub fn listed(log: &[u8], lent: usize, room: usize) -> String {
    let listing = Listing::of_log(log, lent, room);
    listing.whole(log, lent, room, 1000);
    listing.whole(log, lent, room, LONGEST_LINE)
}
