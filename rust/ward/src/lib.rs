//! Safe calls of the ward contact engine. Each function lends its slices to one call of the static library and turns its answer of
//! five numbers into a `Result`. What each call answers and leaves in the slices is proved; `include/ward.h` says it in words.
//!
//! A day has 1 to 128 badges and 1 to 96 ticks. A set of badges is a `u128` with bit u for badge u; in day words it takes two words, lower badges
//! first: the set of those in contact with badge u in tick t is in word 2(t×n+u) and the next one. So a day of n badges and T ticks takes 2×n×T
//! words, and one of up to 64 badges has 0 in every second word. Words after those are never read or changed.
//!
//! ```
//! let log = b"BH\x03\x02CT\x01\x00\x00\x01ED\x01\x00\x00\x00";
//! let mut words = [0u64; ward::WORDS];
//! let day = ward::read(log, &mut words)?;
//! assert_eq!((day.badges, day.ticks, day.contacts), (3, 2, 1));
//!
//! let mut report = vec![0u8; ward::REPORT_BYTES];
//! let size = ward::report(&words, day.badges, day.ticks, ward::all_badges(day.badges), ward::Thresholds::default(), &mut report)?;
//! assert_eq!(&report[..4], b"RH\x03\x02");
//! assert_eq!(&report[4..17], b"GR\x01\x00\x01\x03\x00\x00\x00\x00\x00\x00\x00");
//! assert_eq!(size, 23);
//! # Ok::<(), ward::Refused>(())
//! ```

mod refusal;

pub use refusal::{Refusal, Refused};

/// Badges that a day has at most.
pub const BADGES: usize = 128;
/// Ticks that a day has at most.
pub const TICKS: usize = 96;
/// Words that hold any day: two for each badge in each tick.
pub const WORDS: usize = 24576;
/// Work words that are enough to join any logs: those of a day for each of 4.
pub const JOIN_WORK_WORDS: usize = 4 * WORDS;
/// Bytes that hold any log, tidy or not.
pub const LOG_BYTES: usize = 48010;
/// Bytes that hold any trace: a tick and a source for each of 128 badges.
pub const TRACE_BYTES: usize = 256;
/// Bytes that hold any report: `report_bytes` of 128 badges and 96 ticks. Most reports are much shorter.
pub const REPORT_BYTES: usize = 1042282;
/// Bytes that hold any plan.
pub const PLAN_BYTES: usize = 2043;
/// Bytes that hold the core numbers of any span.
pub const CORE_NUMBERS: usize = 128;

/// In a trace: the tick of a badge that is never reached, and the source of a badge that has none. It is neither a tick nor a badge of any day.
pub const NONE: u8 = 255;

/// What `read` found: n, T, and the number of contact records as given.
#[derive(Clone, Copy, Debug, PartialEq, Eq)]
pub struct Day {
    pub badges: usize,
    pub ticks: usize,
    pub contacts: usize,
}

/// The day that `join` made: n and T, which all logs had.
#[derive(Clone, Copy, Debug, PartialEq, Eq)]
pub struct Joined {
    pub badges: usize,
    pub ticks: usize,
}

/// What a group needs for a report to keep it: so many ticks or more, 1 to 96; an order of so much or more, 1 to 127; so many members or more, 2 to
/// 128, counted in each group and not in the core that it is of. The ranges are the same for every day. By default a report keeps every group.
///
/// ```
/// assert_eq!(ward::Thresholds::default(), ward::Thresholds { ticks: 1, order: 1, members: 2 });
/// ```
#[derive(Clone, Copy, Debug, PartialEq, Eq)]
pub struct Thresholds {
    pub ticks: usize,
    pub order: usize,
    pub members: usize,
}

impl Default for Thresholds {
    fn default() -> Thresholds {
        Thresholds { ticks: 1, order: 1, members: 2 }
    }
}

/// The set of all badges of a day, to review them all: bit u for badge u. 128 badges and more give every bit.
///
/// ```
/// assert_eq!([0, 1, 5].map(ward::all_badges), [0, 0b1, 0b11111]);
/// assert_eq!([64, 65].map(ward::all_badges), [u64::MAX.into(), u128::from(u64::MAX) + (1 << 64)]);
/// assert_eq!([128, 129, usize::MAX].map(ward::all_badges), [u128::MAX; 3]);
/// assert_eq!(ward::all_badges(5) & !(1 << 3), 0b10111); // all of five badges but badge 3
/// ```
pub const fn all_badges(badges: usize) -> u128 {
    if badges < BADGES { (1 << badges) - 1 } else { u128::MAX }
}

/// Room for any report of a day of this size: 10 bytes, and 13 for each of as many records as it may have, or 21 where there are more than 64 badges.
/// Of each order k a report shows at most as many cores as the day has ticks, since none of their spans contains another, and their circles have k +
/// 1 members or more. More than 128 badges count as 128, and more than 96 ticks as 96.
///
/// ```
/// assert_eq!(ward::report_bytes(5, 3), 10 + 13 * 3 * (5 / 2 + 5 / 3 + 5 / 4 + 5 / 5));
/// assert_eq!(ward::report_bytes(128, 96), ward::REPORT_BYTES);
/// assert_eq!(ward::report_bytes(usize::MAX, usize::MAX), ward::REPORT_BYTES);
///
/// // hardly any report is so long: lend what is at hand, and so much only where that is refused
/// let words = ward::words_of(&[0b10, 0b01, 0, 0, 0b10, 0b01]); // two badges in contact in the first and in the third of three ticks
/// let ask = |report: &mut [u8]| ward::report(&words, 2, 3, ward::all_badges(2), ward::Thresholds::default(), report);
/// let mut report = vec![0; 30];
/// let mut answer = ask(&mut report);
/// if answer.is_err_and(|refused| refused.refusal == ward::Refusal::BufferTooShort) {
///     report.resize(ward::report_bytes(2, 3), 0);
///     answer = ask(&mut report);
/// }
/// assert_eq!((answer, report.len()), (Ok(36), 49));
/// ```
pub const fn report_bytes(badges: usize, ticks: usize) -> usize {
    let (badges, ticks) = (if badges < BADGES { badges } else { BADGES }, if ticks < TICKS { ticks } else { TICKS });
    let (mut circles, mut members) = (0, 2);
    while members <= badges {
        circles += badges / members;
        members += 1;
    }
    let record = if badges <= 64 { 13 } else { 21 };
    10 + record * ticks * circles
}

/// The words of a day that is given as a set for each badge in each tick, tick after tick: two words a set, lower badges first.
///
/// ```
/// assert_eq!(ward::words_of(&[0b10, 0b01]), [0b10, 0, 0b01, 0]);
/// assert_eq!(ward::words_of(&[1 << 63, 1 << 64]), [1 << 63, 0, 0, 1]);
/// ```
pub fn words_of(sets: &[u128]) -> Vec<u64> {
    sets.iter().flat_map(|set| halves(*set)).collect()
}

/// The two words of a set, lower badges first.
fn halves(set: u128) -> [u64; 2] {
    [set as u64, (set >> 64) as u64]
}

type Answer = [u64; 5];

extern "C" {
    fn ward_read(log: *const u8, log_len: usize, words: *mut u64, words_len: usize, answer: *mut Answer);
    fn ward_join(
        logs: *const u8,
        logs_len: usize,
        lengths: *const usize,
        lengths_len: usize,
        quorum: usize,
        words: *mut u64,
        words_len: usize,
        work: *mut u64,
        work_len: usize,
        answer: *mut Answer,
    );
    fn ward_tidy(log: *const u8, log_len: usize, work: *mut u64, work_len: usize, out: *mut u8, out_len: usize, answer: *mut Answer);
    fn ward_write(words: *const u64, words_len: usize, badges: usize, ticks: usize, out: *mut u8, out_len: usize, answer: *mut Answer);
    fn ward_trace(
        words: *const u64,
        words_len: usize,
        badges: usize,
        ticks: usize,
        index: usize,
        start: usize,
        out: *mut u8,
        out_len: usize,
        answer: *mut Answer,
    );
    fn ward_core_numbers(
        words: *const u64,
        words_len: usize,
        badges: usize,
        ticks: usize,
        review_low: u64,
        review_high: u64,
        first: usize,
        last: usize,
        out: *mut u8,
        out_len: usize,
        answer: *mut Answer,
    );
    fn ward_report(
        words: *const u64,
        words_len: usize,
        badges: usize,
        ticks: usize,
        review_low: u64,
        review_high: u64,
        least_ticks: usize,
        least_order: usize,
        least_members: usize,
        out: *mut u8,
        out_len: usize,
        answer: *mut Answer,
    );
    fn ward_plan(
        words: *const u64,
        words_len: usize,
        badges: usize,
        ticks: usize,
        review_low: u64,
        review_high: u64,
        query_low: u64,
        query_high: u64,
        parts: usize,
        out: *mut u8,
        out_len: usize,
        answer: *mut Answer,
    );
}

// A slice's pointer is aligned and not null, even where it is empty, and slices borrowed mutably overlap no other: what the calls ask for.

/// Reads a log into day words: the set in word 2(t×n+u) and the next one has bit v exactly when u and v are in contact in tick t. A refused call
/// changes no word.
///
/// ```
/// let mut words = [0u64; ward::WORDS];
/// let day = ward::read(b"BH\x03\x01CT\x02\x00\x00\x00ED\x01\x00\x00\x00", &mut words)?;
/// assert_eq!(day, ward::Day { badges: 3, ticks: 1, contacts: 1 });
/// assert_eq!(words[..6], [0b100, 0, 0, 0, 0b001, 0]); // badges 0 and 2 are in contact
///
/// let day = ward::read(b"BH\x41\x01CT\x3f\x40\x00\x00ED\x01\x00\x00\x00", &mut words)?;
/// assert_eq!(day.badges, 65);
/// assert_eq!(words[2 * 63..2 * 65], [0, 1, 1 << 63, 0]); // badge 63 is in contact with badge 64, and that with badge 63
/// # Ok::<(), ward::Refused>(())
/// ```
pub fn read(log: &[u8], words: &mut [u64]) -> Result<Day, Refused> {
    let mut answer = [0; 5];
    unsafe { ward_read(log.as_ptr(), log.len(), words.as_mut_ptr(), words.len(), &mut answer) };
    refused(answer)?;
    Ok(Day { badges: answer[2] as usize, ticks: answer[3] as usize, contacts: answer[4] as usize })
}

/// Joins the logs of from 2 to 4 receivers of one shift into day words. The logs lie end to end, and `lengths` has how many bytes each takes. The set
/// in word 2(t×n+u) and the next one has bit v exactly when at least `quorum` of the logs, from 1 to all of them, have u and v in contact in tick t;
/// a log that says so twice counts once. There must be 2×n×T work words for each log, and they are left 0. A refused call changes no word.
///
/// ```
/// let both = *b"BH\x03\x01CT\x00\x01\x00\x00CT\x01\x02\x00\x00ED\x02\x00\x00\x00"; // 0 with 1, and 1 with 2
/// let one = *b"BH\x03\x01CT\x02\x01\x00\x00CT\x01\x02\x00\x00ED\x02\x00\x00\x00"; // 1 with 2, said twice
/// let (logs, lengths) = ([both, one].concat(), [both.len(), one.len()]);
/// let (mut words, mut work) = (vec![7u64; ward::WORDS], vec![7u64; ward::JOIN_WORK_WORDS]);
///
/// let day = ward::join(&logs, &lengths, 1, &mut words, &mut work)?;
/// assert_eq!(day, ward::Joined { badges: 3, ticks: 1 });
/// assert_eq!(words[..7], [0b010, 0, 0b101, 0, 0b010, 0, 7]); // what one of them heard
/// assert_eq!(work[..13], [0, 0, 0, 0, 0, 0, 0, 0, 0, 0, 0, 0, 7]);
///
/// ward::join(&logs, &lengths, 2, &mut words, &mut work)?;
/// assert_eq!(words[..7], [0b000, 0, 0b100, 0, 0b010, 0, 7]); // what both heard
///
/// let refused = ward::join(&logs, &lengths, 3, &mut words, &mut work).unwrap_err();
/// assert_eq!(refused.refusal, ward::Refusal::InvalidReceivers);
/// let refused = ward::join(&logs[..43], &[22, 21], 1, &mut words, &mut work).unwrap_err();
/// assert_eq!((refused.refusal, refused.offset), (ward::Refusal::CutShort, 38)); // the second log's end, from the start of the first
/// # Ok::<(), ward::Refused>(())
/// ```
pub fn join(logs: &[u8], lengths: &[usize], quorum: usize, words: &mut [u64], work: &mut [u64]) -> Result<Joined, Refused> {
    let mut answer = [0; 5];
    unsafe {
        ward_join(
            logs.as_ptr(),
            logs.len(),
            lengths.as_ptr(),
            lengths.len(),
            quorum,
            words.as_mut_ptr(),
            words.len(),
            work.as_mut_ptr(),
            work.len(),
            &mut answer,
        )
    };
    refused(answer)?;
    Ok(Joined { badges: answer[2] as usize, ticks: answer[3] as usize })
}

/// Tidies a log into a buffer, and gives the number of bytes. Two logs that mean the same give the same bytes, and no more contact records
/// than came in. The work words hold the day once the log and their number have passed.
///
/// ```
/// let (mut work, mut out) = ([0u64; ward::WORDS], [0u8; ward::LOG_BYTES]);
/// let size = ward::tidy(b"BH\x02\x01CT\x01\x00\x00\x00ED\x01\x00\x00\x00", &mut work, &mut out)?;
/// assert_eq!(&out[..size], b"BH\x02\x01CT\x00\x01\x00\x00ED\x01\x00\x00\x00");
/// # Ok::<(), ward::Refused>(())
/// ```
pub fn tidy(log: &[u8], work: &mut [u64], out: &mut [u8]) -> Result<usize, Refused> {
    let mut answer = [0; 5];
    unsafe { ward_tidy(log.as_ptr(), log.len(), work.as_mut_ptr(), work.len(), out.as_mut_ptr(), out.len(), &mut answer) };
    written(answer)
}

/// Writes day words as their tidy log, and gives the number of bytes.
///
/// ```
/// let words = ward::words_of(&[0b10, 0b01]); // two badges in contact, in one tick
/// let mut log = [0u8; ward::LOG_BYTES];
/// let size = ward::write(&words, 2, 1, &mut log)?;
/// assert_eq!(&log[..size], b"BH\x02\x01CT\x00\x01\x00\x00ED\x01\x00\x00\x00");
/// # Ok::<(), ward::Refused>(())
/// ```
pub fn write(words: &[u64], badges: usize, ticks: usize, out: &mut [u8]) -> Result<usize, Refused> {
    let mut answer = [0; 5];
    unsafe { ward_write(words.as_ptr(), words.len(), badges, ticks, out.as_mut_ptr(), out.len(), &mut answer) };
    written(answer)
}

/// Puts the trace of an exposure into a buffer, whom the badge `index` can have reached from tick `start` on, and gives the number of bytes: first
/// one for each badge with the earliest tick in which a chain arrives at it, then one for each badge with its source. A chain is a series of
/// contacts, from the index to a badge, in strictly rising ticks of which the first is `start` or later: the index passes on in tick `start` and in
/// every later one, and every other badge only in ticks after the one in which it was reached. A badge's source is the smallest badge in contact with
/// it in its tick that passes on in that tick. The index has the tick `start` and the source [`NONE`], whatever it is in contact with; a badge that
/// is never reached has [`NONE`] for both; and every other badge has a source.
///
/// ```
/// use ward::NONE;
/// let words = ward::words_of(&[0b010, 0b001, 0, 0, 0b100, 0b010]); // badges 0 and 1 in contact in tick 0, and badges 1 and 2 in tick 1
/// let mut trace = [0u8; ward::TRACE_BYTES];
///
/// // met in rising ticks: badge 0 reaches badge 1 in tick 0, which reaches badge 2 in tick 1
/// assert_eq!(ward::trace(&words, 3, 2, 0, 0, &mut trace), Ok(6));
/// assert_eq!(trace[..6], [0, 0, 1, NONE, 0, 1]);
///
/// // met in falling ticks: badge 2 reaches badge 1 in tick 1, which was in contact with badge 0 before that alone
/// ward::trace(&words, 3, 2, 2, 0, &mut trace)?;
/// assert_eq!(trace[..6], [NONE, 1, 0, NONE, 2, NONE]);
///
/// // both in one tick: nobody but the index passes on in the tick in which it was reached
/// ward::trace(&ward::words_of(&[0b010, 0b101, 0b010]), 3, 1, 0, 0, &mut trace)?;
/// assert_eq!(trace[..6], [0, 0, NONE, NONE, 0, NONE]);
///
/// let refused = ward::trace(&words, 3, 2, 3, 0, &mut trace).unwrap_err();
/// assert_eq!(refused.refusal, ward::Refusal::InvalidStart);
/// assert_eq!(refused.to_string(), "refused 22 at 0: the index is not a badge of the day, or the start not a tick of it");
/// let refused = ward::trace(&words, 3, 2, 0, 2, &mut []).unwrap_err();
/// assert_eq!(refused.refusal, ward::Refusal::InvalidStart); // judged before the buffer
/// # Ok::<(), ward::Refused>(())
/// ```
///
/// ```
/// // in tick 0 badge 3 is in contact with badges 1 and 2, and in tick 1 badge 0 with both of these: of its two possible sources it shows the smaller
/// let words = ward::words_of(&[0, 0b1000, 0b1000, 0b0110, 0b0110, 0b0001, 0b0001, 0]);
/// let mut trace = [0u8; ward::TRACE_BYTES];
/// let size = ward::trace(&words, 4, 2, 3, 0, &mut trace)?;
/// let (ticks, sources) = trace[..size].split_at(4);
/// assert_eq!(ticks, [1, 0, 0, 0]);
/// assert_eq!(sources, [1, 3, 3, ward::NONE]);
/// # Ok::<(), ward::Refused>(())
/// ```
pub fn trace(words: &[u64], badges: usize, ticks: usize, index: usize, start: usize, out: &mut [u8]) -> Result<usize, Refused> {
    let mut answer = [0; 5];
    unsafe { ward_trace(words.as_ptr(), words.len(), badges, ticks, index, start, out.as_mut_ptr(), out.len(), &mut answer) };
    written(answer)
}

/// Puts the core number of each badge on a span into a buffer, one byte a badge, and gives the number of badges. The cores are those among the badges
/// under review, a set with bit u for badge u; a badge that is not under review has 0.
///
/// ```
/// let words = ward::words_of(&[0b110, 0b101, 0b011]); // three badges in contact, in one tick
/// let mut numbers = [0u8; ward::CORE_NUMBERS];
/// assert_eq!(ward::core_numbers(&words, 3, 1, ward::all_badges(3), 0, 0, &mut numbers), Ok(3));
/// assert_eq!(numbers[..3], [2, 2, 2]);
///
/// ward::core_numbers(&words, 3, 1, 0b101, 0, 0, &mut numbers)?; // without badge 1
/// assert_eq!(numbers[..3], [1, 0, 1]);
///
/// let refused = ward::core_numbers(&words, 3, 1, 0b1101, 0, 0, &mut numbers).unwrap_err();
/// assert_eq!(refused.refusal, ward::Refusal::InvalidReview);
/// assert_eq!(refused.to_string(), "refused 20 at 0: no badge is under review, or one that the day does not have");
/// # Ok::<(), ward::Refused>(())
/// ```
pub fn core_numbers(words: &[u64], badges: usize, ticks: usize, review: u128, first: usize, last: usize, out: &mut [u8]) -> Result<usize, Refused> {
    let mut answer = [0; 5];
    let [low, high] = halves(review);
    unsafe { ward_core_numbers(words.as_ptr(), words.len(), badges, ticks, low, high, first, last, out.as_mut_ptr(), out.len(), &mut answer) };
    written(answer)
}

/// Puts the report of a day's groups into a buffer, of those that meet the thresholds, and gives the number of bytes. The groups are the circles of
/// the maximal cores: the members of each such core split by who is joined to whom through chains of pairs of members that stay in contact throughout
/// its span. Each has a record with the order and the span of its core; they are ordered by first tick, last tick and smallest member. The cores are
/// those among the badges under review, a set with bit u for badge u, and which are maximal is judged among these cores alone, before they are split.
/// [`REPORT_BYTES`] are enough for any report, and [`report_bytes`] says how many are for a smaller day.
///
/// The bytes are RH, n and T; for each group GR, its order, first and last tick and its members in 8 bytes, the lowest first; ED and the number of
/// groups in 4 bytes. Where n is above 64, the marks are RW and GW, and members have 16 bytes.
///
/// ```
/// // two teams of three, each together all day, that never met: one core of order 2, two groups
/// let words = ward::words_of(&[0b000110, 0b000101, 0b000011, 0b110000, 0b101000, 0b011000].repeat(4));
/// let (everyone, mut report) = (ward::all_badges(6), [0u8; ward::report_bytes(6, 4)]);
/// let size = ward::report(&words, 6, 4, everyone, ward::Thresholds::default(), &mut report)?;
/// assert_eq!(&report[4..17], b"GR\x02\x00\x03\x07\x00\x00\x00\x00\x00\x00\x00"); // order 2, ticks 0 to 3, badges 0, 1 and 2
/// assert_eq!(&report[17..30], b"GR\x02\x00\x03\x38\x00\x00\x00\x00\x00\x00\x00"); // order 2, ticks 0 to 3, badges 3, 4 and 5
/// assert_eq!(&report[30..size], b"ED\x02\x00\x00\x00");
///
/// // members are counted in each group: none has four
/// let large = ward::Thresholds { members: 4, ..Default::default() };
/// let size = ward::report(&words, 6, 4, everyone, large, &mut report)?;
/// assert_eq!(&report[..size], b"RH\x06\x04ED\x00\x00\x00\x00");
/// # Ok::<(), ward::Refused>(())
/// ```
///
/// ```
/// // 65 badges in one tick: badges 63 and 64 are in contact
/// let mut sets = [0; 65];
/// (sets[63], sets[64]) = (1 << 64, 1 << 63);
/// let (words, mut report) = (ward::words_of(&sets), [0u8; ward::report_bytes(65, 1)]);
/// let size = ward::report(&words, 65, 1, ward::all_badges(65), ward::Thresholds::default(), &mut report)?;
/// assert_eq!(&report[..4], b"RW\x41\x01");
/// assert_eq!(&report[4..25], b"GW\x01\x00\x00\x00\x00\x00\x00\x00\x00\x00\x80\x01\x00\x00\x00\x00\x00\x00\x00"); // order 1, tick 0 to 0, badges 63 and 64
/// assert_eq!(&report[25..size], b"ED\x01\x00\x00\x00");
/// # Ok::<(), ward::Refused>(())
/// ```
///
/// ```
/// let words = ward::words_of(&[0b110, 0b101, 0b011, 0b010, 0b001, 0]); // three badges in contact, and in the next tick two of them
/// let (everyone, mut report) = (ward::all_badges(3), [0u8; ward::report_bytes(3, 2)]);
/// let size = ward::report(&words, 3, 2, everyone, ward::Thresholds::default(), &mut report)?;
/// assert_eq!(&report[4..17], b"GR\x02\x00\x00\x07\x00\x00\x00\x00\x00\x00\x00"); // order 2, tick 0 to 0, all three
/// assert_eq!(&report[17..30], b"GR\x01\x00\x01\x03\x00\x00\x00\x00\x00\x00\x00"); // order 1, ticks 0 to 1, the two
/// assert_eq!(size, 36);
///
/// let lasting = ward::Thresholds { ticks: 2, ..Default::default() };
/// let size = ward::report(&words, 3, 2, everyone, lasting, &mut report)?;
/// assert_eq!(&report[..size], b"RH\x03\x02GR\x01\x00\x01\x03\x00\x00\x00\x00\x00\x00\x00ED\x01\x00\x00\x00");
///
/// // without badge 0 the other two are a group of tick 0, which the report of all three does not have
/// let size = ward::report(&words, 3, 2, 0b110, ward::Thresholds::default(), &mut report)?;
/// assert_eq!(&report[..size], b"RH\x03\x02GR\x01\x00\x00\x06\x00\x00\x00\x00\x00\x00\x00ED\x01\x00\x00\x00");
///
/// let alone = ward::Thresholds { members: 1, ..Default::default() };
/// let refused = ward::report(&words, 3, 2, everyone, alone, &mut report).unwrap_err();
/// assert_eq!(refused.refusal, ward::Refusal::ThresholdOutOfRange);
/// assert_eq!(refused.to_string(), "refused 17 at 0: least ticks not 1 to 96, least order not 1 to 127, or least members not 2 to 128");
/// let refused = ward::report(&words, 3, 2, 0, alone, &mut report).unwrap_err();
/// assert_eq!(refused.refusal, ward::Refusal::InvalidReview); // judged before the thresholds
/// # Ok::<(), ward::Refused>(())
/// ```
pub fn report(words: &[u64], badges: usize, ticks: usize, review: u128, thresholds: Thresholds, out: &mut [u8]) -> Result<usize, Refused> {
    let mut answer = [0; 5];
    let [low, high] = halves(review);
    let Thresholds { ticks: least_ticks, order, members } = thresholds;
    unsafe {
        ward_report(words.as_ptr(), words.len(), badges, ticks, low, high, least_ticks, order, members, out.as_mut_ptr(), out.len(), &mut answer)
    };
    written(answer)
}

/// Puts the plan of a shift around a query into a buffer, and gives the number of bytes. Of the cuttings with the greatest sum of scores it is the
/// one whose list of last ticks comes first, compared number by number. The badges under review and the query are sets with bit u for badge u: the
/// scores are those of cores among the reviewed badges, of which the query must be; a part shows such a core, not split into circles, and at score 0
/// all reviewed badges.
///
/// The bytes are PH, n, T, the number of parts and the query in 8 bytes, the lowest first; for each part PT, its score, first and last tick and its
/// members in 8 bytes; ED and the number of parts in 4 bytes. Where n is above 64, the marks are PW and QW, and sets have 16 bytes.
///
/// ```
/// let words = ward::words_of(&[0b10, 0b01]);
/// let (everyone, mut plan) = (ward::all_badges(2), [0u8; ward::PLAN_BYTES]);
/// let size = ward::plan(&words, 2, 1, everyone, 0b01, 1, &mut plan)?;
/// assert_eq!(&plan[..13], b"PH\x02\x01\x01\x01\x00\x00\x00\x00\x00\x00\x00"); // one part, around badge 0
/// assert_eq!(&plan[13..26], b"PT\x01\x00\x00\x03\x00\x00\x00\x00\x00\x00\x00"); // score 1, tick 0 to 0, both badges
/// assert_eq!(size, 32);
///
/// ward::plan(&words, 2, 1, 0b01, 0b01, 1, &mut plan)?; // without badge 1
/// assert_eq!(&plan[13..26], b"PT\x00\x00\x00\x01\x00\x00\x00\x00\x00\x00\x00"); // score 0, tick 0 to 0, badge 0 as the one under review
///
/// // together in all of three ticks: a cut after tick 0 and one after tick 1 have the same sum, and the first is taken
/// ward::plan(&ward::words_of(&[0b10, 0b01].repeat(3)), 2, 3, everyone, 0b01, 2, &mut plan)?;
/// assert_eq!(plan[13..18], *b"PT\x01\x00\x00"); // ticks 0 to 0
/// assert_eq!(plan[26..31], *b"PT\x01\x01\x02"); // ticks 1 to 2
///
/// let refused = ward::plan(&words, 2, 1, everyone, 0b100, 1, &mut plan).unwrap_err();
/// assert_eq!(refused.refusal, ward::Refusal::ForeignQuery);
/// assert_eq!(refused.to_string(), "refused 13 at 0: the query has a badge that the day does not have");
/// let refused = ward::plan(&words, 2, 1, 0b01, 0b11, 1, &mut plan).unwrap_err();
/// assert_eq!(refused.refusal, ward::Refusal::QueryNotReviewed);
/// assert_eq!(refused.to_string(), "refused 21 at 0: the query has a badge that is not under review");
/// # Ok::<(), ward::Refused>(())
/// ```
pub fn plan(words: &[u64], badges: usize, ticks: usize, review: u128, query: u128, parts: usize, out: &mut [u8]) -> Result<usize, Refused> {
    let mut answer = [0; 5];
    let [[low, high], [query_low, query_high]] = [review, query].map(halves);
    unsafe {
        ward_plan(words.as_ptr(), words.len(), badges, ticks, low, high, query_low, query_high, parts, out.as_mut_ptr(), out.len(), &mut answer)
    };
    written(answer)
}

fn refused(answer: Answer) -> Result<(), Refused> {
    if answer[0] == 0 {
        return Ok(());
    }
    Err(refusal(answer))
}

#[cold]
fn refusal(answer: Answer) -> Refused {
    let refusal = Refusal::from_number(answer[0]).expect("the number of a refusal");
    Refused { refusal, offset: answer[1] as usize }
}

fn written(answer: Answer) -> Result<usize, Refused> {
    refused(answer)?;
    Ok(answer[4] as usize)
}
