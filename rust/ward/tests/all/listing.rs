//! The listing: texts written by hand, damaged logs, the longest logs, and what is lent to it.

use crate::model::{self, full, judge};
use crate::support::d1::{MESSY, TIDY};
use crate::support::days::{all_but_three, away_once, day_by, groups_with_away_once, log_of};
use crate::support::digits::{MOST_LISTED, MOST_PAIRS, ONE_MORE, changing_groups, changing_pairs, digit_groups, digit_log, wide_groups, wide_log};
use crate::support::listings::{LONGEST_LINE, Listing, listed};
use crate::support::logs::{damage, put_contact, random_log, with_one_byte_changed};
use crate::support::random::Random;

const D1: &str = "badges 4 ticks 3 groups 2\norder 2 ticks 0 to 1 badges 0 1 2\norder 1 ticks 0 to 2 badges 2 3\n";

/// What the listing program lends: words for every day of up to 64 badges, and for one of 128 badges and 48 ticks; and bytes for a report of at most
/// 5,040 records, or 3,120 where there are more than 64 badges.
const WORDS: usize = 12288;
const ROOM: usize = 65536;

/// A text, lent as much as the program lends.
fn text_of(log: &[u8]) -> String {
    listed(log, WORDS, ROOM)
}

#[test]
fn d1() {
    assert_eq!((text_of(TIDY), text_of(MESSY)), (D1.to_string(), D1.to_string()));
}

/// Short logs, with lines written by hand from document 01's rules.
const BY_HAND: &[(&[u8], &str)] = &[
    (b"", "refused 1 at 0\n"),
    (b"B", "refused 1 at 0\n"),
    (b"BH\x04", "refused 1 at 0\n"),
    (b"BH\x04\x03", "refused 1 at 4\n"),
    (b"BH\x04\x03CT\x00\x01\x00\x01", "refused 1 at 10\n"),
    (b"RH\x04\x03ED\x00\x00\x00\x00", "refused 2 at 0\n"),
    (b"BH\x04\x03GR\x00\x00\x00\x00", "refused 2 at 4\n"),
    (b"BH\x81\x03ED\x00\x00\x00\x00", "refused 3 at 0\n"),
    (b"BH\x04\x61ED\x00\x00\x00\x00", "refused 3 at 0\n"),
    (b"BH\x04\x03CT\x00\x00\x00\x01ED\x01\x00\x00\x00", "refused 4 at 4\n"),
    (b"BH\x04\x03CT\x00\x01\x00\x01CT\x00\x01\x00\x03ED\x02\x00\x00\x00", "refused 4 at 10\n"),
    (b"BH\x04\x03CT\x00\x01\x00\x01ED\x02\x00\x00\x00", "refused 6 at 10\n"),
    (b"BH\x04\x03ED\x00\x00\x00\x00\n", "refused 7 at 10\n"),
    // without contacts; three badges of which the first changes its partner; badges 10 and 63 in the last tick of a day of full size
    (b"BH\x04\x03ED\x00\x00\x00\x00", "badges 4 ticks 3 groups 0\n"),
    (b"BH\x01\x01ED\x00\x00\x00\x00", "badges 1 ticks 1 groups 0\n"),
    (b"BH\x40\x60ED\x00\x00\x00\x00", "badges 64 ticks 96 groups 0\n"),
    (
        b"BH\x03\x02CT\x00\x01\x00\x00CT\x02\x00\x01\x01ED\x02\x00\x00\x00",
        "badges 3 ticks 2 groups 2\norder 1 ticks 0 to 0 badges 0 1\norder 1 ticks 1 to 1 badges 0 2\n",
    ),
    (b"BH\x40\x60CT\x3f\x0a\x5f\x5fED\x01\x00\x00\x00", "badges 64 ticks 96 groups 1\norder 1 ticks 95 to 95 badges 10 63\n"),
    // more than 64 badges: some that make a pair across the words of a set, and badges of three digits; up to 12,288 words, and more
    (b"BH\x41\x5eCT\x40\x3f\x00\x5dED\x01\x00\x00\x00", "badges 65 ticks 94 groups 1\norder 1 ticks 0 to 93 badges 63 64\n"),
    (b"BH\x41\x5fCT\x40\x3f\x00\x5dED\x01\x00\x00\x00", "refused 8 at 0\n"),
    (b"BH\x80\x30CT\x7f\x09\x2f\x2fED\x01\x00\x00\x00", "badges 128 ticks 48 groups 1\norder 1 ticks 47 to 47 badges 9 127\n"),
    (b"BH\x80\x31CT\x7f\x09\x2f\x2fED\x01\x00\x00\x00", "refused 8 at 0\n"),
    (b"BH\x80\x60ED\x00\x00\x00\x00", "refused 8 at 0\n"),
    (b"BH\x80\x60ED\x00\x00\x00\x00X", "refused 7 at 10\n"),
    // two pairs that never met, the one with the smallest badge first; and the same with a contact between them, in one tick of two and in both
    (
        b"BH\x04\x02CT\x02\x01\x00\x01CT\x03\x00\x00\x01ED\x02\x00\x00\x00",
        "badges 4 ticks 2 groups 2\norder 1 ticks 0 to 1 badges 0 3\norder 1 ticks 0 to 1 badges 1 2\n",
    ),
    (
        b"BH\x04\x02CT\x02\x01\x00\x01CT\x03\x00\x00\x01CT\x02\x03\x01\x01ED\x03\x00\x00\x00",
        "badges 4 ticks 2 groups 2\norder 1 ticks 0 to 1 badges 0 3\norder 1 ticks 0 to 1 badges 1 2\n",
    ),
    (
        b"BH\x04\x02CT\x02\x01\x00\x01CT\x03\x00\x00\x01CT\x02\x03\x00\x01ED\x03\x00\x00\x00",
        "badges 4 ticks 2 groups 1\norder 1 ticks 0 to 1 badges 0 1 2 3\n",
    ),
];

#[test]
fn by_hand() {
    for (log, text) in BY_HAND {
        assert_eq!(text_of(log), *text);
    }
}

/// The log is judged first, then the words, then the bytes for D1's report of 36.
#[test]
fn too_little_lent() {
    let cases = [(34, 23, 36, "8 at 0"), (34, 0, 0, "8 at 0"), (34, 24, 35, "9 at 0"), (34, 24, 0, "9 at 0"), (4, 0, 0, "1 at 4")];
    for (len, lent, room, text) in cases {
        assert_eq!(listed(&TIDY[..len], lent, room), format!("refused {text}\n"));
    }
}

/// Each number of words up to 32, and of bytes up to 49: of D1's logs, for which 24 and 36 are enough, and of logs that are refused, the second after
/// good contacts.
#[test]
fn words_and_bytes_lent() {
    let refused: [&[u8]; 2] = [b"BH\x04\x61ED\x00\x00\x00\x00", b"BH\x04\x03CT\x00\x01\x00\x01CT\x02\x03\x00\x03ED\x02\x00\x00\x00"];
    for lent in 0..=32 {
        for room in 0..50 {
            let text = if lent < 24 {
                "refused 8 at 0\n"
            } else if room < 36 {
                "refused 9 at 0\n"
            } else {
                D1
            };
            assert_eq!(listed(TIDY, lent, room), text);
            assert_eq!(listed(MESSY, lent, room), text);
            assert_eq!(listed(refused[0], lent, room), "refused 3 at 0\n");
            assert_eq!(listed(refused[1], lent, room), "refused 4 at 10\n");
        }
    }
}

#[test]
fn prefixes_of_d1() {
    for log in [&TIDY[..], &MESSY[..]] {
        for len in 0..=log.len() {
            listed(&log[..len], 800, 1400);
        }
    }
}

/// A change can make the day larger.
#[test]
fn d1_with_one_byte_changed() {
    for changed in with_one_byte_changed(TIDY).chain(with_one_byte_changed(MESSY)) {
        listed(&changed, 800, 1400);
    }
}

/// Random logs, some of them damaged: small ones, ones with badges and ticks of two digits, and ones with badges of three.
#[test]
fn random_logs() {
    let mut random = Random(51);
    for (logs, from, to, ticks, most) in [(10_000, 1, 6, 5, 12), (1000, 1, 12, 14, 60), (300, 60, 70, 6, 60), (300, 95, 128, 3, 60)] {
        for _ in 0..logs {
            let (n, ticks, count) = (from + random.below(to - from + 1), 1 + random.below(ticks), random.below(most + 1));
            let mut log = random_log(&mut random, n, ticks, count);
            if random.below(3) == 0 {
                damage(&mut random, &mut log);
            }
            listed(&log, 800, 1400);
        }
    }
}

/// 64 badges all in contact all day: one group.
#[test]
fn all_64_in_contact() {
    let day = day_by(64, 96, |_, _, _| true);
    let (log, listing) = (log_of(&day), Listing::of_day(&day, &[(63, 0, 95, full(64))]));
    let badges: String = (0..64).map(|v| format!(" {v}")).collect();
    let text = format!("badges 64 ticks 96 groups 1\norder 63 ticks 0 to 95 badges{badges}\n");
    assert_eq!(listing.whole(&log, 12300, ROOM, 65536), text);
    assert_eq!(listed(&log, 12287, ROOM), "refused 8 at 0\n");
}

/// 128 badges in ticks 10 to 47, each in contact with all but three of the others: one group, of order 124, and the longest line that there can be.
/// In 96 ticks the same, where words are lent for that.
#[test]
fn the_longest_line() {
    for (ticks, lent) in [(48, WORDS), (96, ward::WORDS)] {
        let day = all_but_three(ticks);
        let (log, listing) = (log_of(&day), Listing::of_day(&day, &[(124, 10, ticks - 1, u128::MAX)]));
        let badges: String = (0..128).map(|v| format!(" {v}")).collect();
        let line = format!("order 124 ticks 10 to {} badges{badges}\n", ticks - 1);
        assert_eq!((log.len(), line.len()), (10 + 6 * 7936, LONGEST_LINE));
        for size in [LONGEST_LINE, LONGEST_LINE + 1, 65536] {
            assert_eq!(listing.whole(&log, lent, 31, size), format!("badges 128 ticks {ticks} groups 1\n{line}"));
        }
        assert_eq!(listed(&log, lent, 30), "refused 9 at 0\n");
        assert_eq!(listed(&log, 256 * ticks - 1, ROOM), "refused 8 at 0\n");
    }
}

/// Every day of up to 64 badges is listed, or refused by 9 alone; of more badges those that take 12,288 words or fewer.
#[test]
fn sizes_that_are_listed() {
    for (n, ticks) in
        [(1, 96), (64, 96), (65, 94), (65, 95), (66, 93), (66, 94), (96, 64), (96, 65), (127, 48), (127, 49), (128, 48), (128, 49), (128, 96)]
    {
        let text = if n * ticks <= 6144 { format!("badges {n} ticks {ticks} groups 0\n") } else { "refused 8 at 0\n".to_string() };
        assert_eq!(text_of(&model::log_bytes(n as u8, ticks as u8, &[])), text);
    }
}

/// Badge t away from all others in tick t, for each t up to 63: 2,078 groups.
#[test]
fn many_groups() {
    let (day, groups) = (away_once(), groups_with_away_once());
    assert_eq!(groups.len(), 2078);
    let (log, listing) = (log_of(&day), Listing::of_day(&day, &groups));
    listing.whole(&log, 12300, ROOM, 65536);
    listing.whole(&log, WORDS, 27024, 65536);
    assert_eq!(listed(&log, WORDS, 27023), "refused 9 at 0\n");
}

/// The longest report that is listed has 5,040 records, 65,530 bytes, and its listing 5,041 lines. One contact more brings another record: 65,543
/// bytes, which are refused where 65,536 are lent, and listed where there is room.
#[test]
fn longest_listing() {
    let [log, one_more] = [MOST_LISTED, MOST_LISTED + 1].map(|contacts| digit_log(64, contacts, 3));
    let mut groups = digit_groups(64, 92, 3);
    let listing = Listing::of_day(&judge(&log).expect("a log").0, &groups);
    assert_eq!((listing.prepared, listing.lines.len()), (Ok(65530), 5041));
    assert!(listing.lines[0] == "badges 64 ticks 96 groups 5040\n" && listing.lines[5040] == "order 1 ticks 89 to 91 badges 55 63\n");
    for room in [ROOM, 65530] {
        listing.whole(&log, WORDS, room, 65536);
    }
    assert_eq!(listed(&log, WORDS, 65529), "refused 9 at 0\n");
    assert_eq!(text_of(&log), listing.lines.concat());

    groups.push(ONE_MORE);
    let listing = Listing::of_day(&judge(&one_more).expect("a log").0, &groups);
    assert_eq!((listing.prepared, listing.lines.len()), (Ok(65543), 5042));
    assert_eq!(text_of(&one_more), "refused 9 at 0\n");
    assert_eq!(listed(&one_more, WORDS, 65542), "refused 9 at 0\n");
    for room in [65543, ward::REPORT_BYTES] {
        listing.whole(&one_more, WORDS, room, 65536);
    }
}

/// The same of 128 badges: 3,120 records, 65,530 bytes; and with one contact more 65,551.
#[test]
fn longest_listing_of_128_badges() {
    for (pairs, size) in [(MOST_PAIRS, 65530), (MOST_PAIRS + 1, 65551)] {
        let log = wide_log(pairs);
        let listing = Listing::of_day(&judge(&log).expect("a log").0, &wide_groups(pairs));
        assert_eq!((listing.prepared, listing.lines.len()), (Ok(size), 3073 + pairs));
        assert!(
            listing.lines[0] == format!("badges 128 ticks 48 groups {}\n", 3072 + pairs)
                && listing.lines[3120] == "order 1 ticks 40 to 40 badges 94 95\n"
        );
        assert_eq!(text_of(&log), if size <= ROOM { listing.lines.concat() } else { "refused 9 at 0\n".to_string() });
        for room in [size, ward::REPORT_BYTES] {
            listing.whole(&log, WORDS, room, 65536);
        }
        assert_eq!(listed(&log, WORDS, size - 1), "refused 9 at 0\n");
    }
}

/// 32 pairs, others in each tick: a line for each pair in each tick.
#[test]
fn pairs_that_change() {
    let (log, day) = (digit_log(64, 64 * 96, 1), changing_pairs(64));
    assert!(text_of(&log).starts_with("badges 64 ticks 96 groups 3072\norder 1 ticks 0 to 0 badges 0 1\norder 1 ticks 0 to 0 badges 2 3\n"));
    Listing::of_day(&judge(&log).expect("a log").0, &digit_groups(64, 96, 1)).whole(&log, WORDS, ROOM, 65536);
    Listing::of_day(&day, &changing_groups(64)).whole(&log_of(&day), WORDS, ROOM, 65536);
}

/// A log of n 4 and T 3 with so many contacts: 0–1, 1–2 and 2–3 in turn, in tick 0 and in ticks 0 to 1 by turns.
fn repeats(count: usize) -> Vec<u8> {
    let contacts: Vec<[u8; 4]> = (0..count).map(|k| [k % 3, k % 3 + 1, 0, k % 2].map(|x| x as u8)).collect();
    model::log_bytes(4, 3, &contacts)
}

/// 8,000 contacts pass. A byte more is refused, and so is a cut, at offsets of three, four and five digits.
#[test]
fn most_contacts() {
    let mut log = repeats(8000);
    for (lent, room) in [(WORDS, ROOM), (800, 1400)] {
        assert_eq!(listed(&log, lent, room), "badges 4 ticks 3 groups 1\norder 1 ticks 0 to 1 badges 0 1 2 3\n");
    }
    log.resize(48100, 0);
    for (len, text) in [(48100, "7 at 48010"), (48011, "7 at 48010"), (48009, "1 at 48004"), (10000, "1 at 10000"), (9999, "1 at 9994")] {
        assert_eq!(text_of(&log[..len]), format!("refused {text}\n"));
    }
    for (len, text) in [(1001, "1 at 1000"), (999, "1 at 994"), (100, "1 at 100")] {
        assert_eq!(text_of(&log[..len]), format!("refused {text}\n"));
    }
}

/// Number 8,001 is refused as soon as its mark is there. A bad one before it is refused first.
#[test]
fn one_contact_more() {
    let mut log = repeats(8001);
    log.resize(48100, 0);
    for (len, text) in [(48100, "5 at 48004"), (48016, "5 at 48004"), (48011, "5 at 48004"), (48006, "5 at 48004"), (48005, "1 at 48004")] {
        assert_eq!(text_of(&log[..len]), format!("refused {text}\n"));
    }
    put_contact(&mut log, 7999, [1, 1, 0, 0]);
    assert_eq!(text_of(&log), "refused 4 at 47998\n");
}
