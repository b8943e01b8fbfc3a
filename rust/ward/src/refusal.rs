//! Why a call refuses.

use std::error::Error;
use std::fmt;

/// A refusal, in the order of its numbers: 1 to 15, and 17 to 22. 16 is unused, and no refusal will ever get it.
///
/// ```
/// use ward::Refusal;
/// assert_eq!(Refusal::NotADay.number(), 11);
/// assert_eq!(Refusal::from_number(11), Some(Refusal::NotADay));
/// for number in (1..=15).chain(17..=22) {
///     assert_eq!(Refusal::from_number(number).map(|refusal| refusal.number() as u64), Some(number));
/// }
/// assert_eq!([0, 16, 23].map(Refusal::from_number), [None; 3]);
/// ```
#[derive(Clone, Copy, Debug, PartialEq, Eq)]
pub enum Refusal {
    CutShort = 1,
    WrongMark,
    HeaderOutOfLimits,
    InvalidContact,
    TooManyContacts,
    WrongCount,
    TrailingBytes,
    TooFewWords,
    BufferTooShort,
    SizeOutOfLimits,
    NotADay,
    InvalidSpan,
    ForeignQuery,
    InvalidParts,
    WriteTooMany,
    ThresholdOutOfRange = 17,
    InvalidReceivers,
    DifferentShifts,
    InvalidReview,
    QueryNotReviewed,
    InvalidStart,
}

use Refusal::*;

const ALL: [(Refusal, &str); 21] = [
    (CutShort, "the bytes end inside a record, or where one must start"),
    (WrongMark, "the mark is not that of a record that may stand there"),
    (HeaderOutOfLimits, "badges not 1 to 128, or ticks not 1 to 96"),
    (InvalidContact, "equal badges, a badge or tick that the day does not have, or first after last"),
    (TooManyContacts, "contact record number 8,001"),
    (WrongCount, "the end's count differs"),
    (TrailingBytes, "bytes follow the end"),
    (TooFewWords, "fewer words lent than two for each badge in each tick, or fewer work words than that for each log"),
    (BufferTooShort, "the buffer is shorter than the answer"),
    (SizeOutOfLimits, "badges not 1 to 128, or ticks not 1 to 96, handed over"),
    (NotADay, "the words are not a day"),
    (InvalidSpan, "first after last, or last not a tick of the day"),
    (ForeignQuery, "the query has a badge that the day does not have"),
    (InvalidParts, "no parts, or more than there are ticks"),
    (WriteTooMany, "the tidy log would need more than 8,000 contact records"),
    (ThresholdOutOfRange, "least ticks not 1 to 96, least order not 1 to 127, or least members not 2 to 128"),
    (InvalidReceivers, "not 2 to 4 logs, a quorum that is not 1 to their number, or lengths that do not add up to the bytes"),
    (DifferentShifts, "the badges or ticks of a log differ from the first log's"),
    (InvalidReview, "no badge is under review, or one that the day does not have"),
    (QueryNotReviewed, "the query has a badge that is not under review"),
    (InvalidStart, "the index is not a badge of the day, or the start not a tick of it"),
];

impl Refusal {
    /// The refusal of a number; none for 0, which is success, for 16, and for a number above 22.
    pub fn from_number(number: u64) -> Option<Refusal> {
        ALL.iter().map(|row| row.0).find(|refusal| *refusal as u64 == number)
    }

    /// Its number in the paper.
    pub fn number(self) -> u8 {
        self as u8
    }

    /// What it means, in words.
    ///
    /// ```
    /// assert_eq!(ward::Refusal::WrongCount.meaning(), "the end's count differs");
    /// ```
    pub fn meaning(self) -> &'static str {
        ALL.iter().find(|row| row.0 == self).map_or("", |row| row.1)
    }
}

/// What a refused call answers: the refusal, and a byte offset. The offset is the start of the refused record for 1 to 6, of the first extra
/// byte for 7, and 0 otherwise. Of several logs it counts from the start of the first.
///
/// ```
/// let refused = ward::read(b"BH\x02\x01CT", &mut [0; 4]).unwrap_err();
/// assert_eq!((refused.refusal, refused.refusal.number(), refused.offset), (ward::Refusal::CutShort, 1, 4));
/// assert_eq!(refused.to_string(), "refused 1 at 4: the bytes end inside a record, or where one must start");
/// ```
#[derive(Clone, Copy, Debug, PartialEq, Eq)]
pub struct Refused {
    pub refusal: Refusal,
    pub offset: usize,
}

impl fmt::Display for Refused {
    fn fmt(&self, f: &mut fmt::Formatter<'_>) -> fmt::Result {
        write!(f, "refused {} at {}: {}", self.refusal.number(), self.offset, self.refusal.meaning())
    }
}

impl Error for Refused {}
