//! Join: logs of several receivers whose answers are written by hand or given by a rule.

use crate::model;
use crate::support::calls::join;
use crate::support::d1::{MESSY, TIDY, WORDS};
use crate::support::logs::{all_in_contact, long, put_contact, with_one_byte_changed};
use crate::support::receivers::{end_to_end, join_all};
use crate::support::seen::all_seen;
use crate::support::sets::words_of;

/// The log of a receiver that hears all of D1 but 0–1, and the day's words without it.
const WITHOUT_0_1: &[u8; 28] = b"BH\x04\x03CT\x00\x02\x00\x01CT\x01\x02\x00\x01CT\x02\x03\x00\x02ED\x03\x00\x00\x00";
const WORDS_WITHOUT_0_1: [u64; 24] = [4, 0, 4, 0, 11, 0, 4, 0, 4, 0, 4, 0, 11, 0, 4, 0, 0, 0, 0, 0, 8, 0, 4, 0];

/// Two receivers, of which the second misses 0–1, in either order: one of them hears all of D1, and both all but 0–1. What is lent beyond the 24
/// words and the 48 work words stays as it was.
#[test]
fn d1_of_which_one_misses_a_contact() {
    for full in [&TIDY[..], MESSY] {
        for logs in [[full, WITHOUT_0_1], [WITHOUT_0_1, full]] {
            for (lent, work) in [(24, 48), (26, 48), (24, 49), (24600, 98400)] {
                assert_eq!(join_all(&logs, 1, lent, work), Ok((4, 3, WORDS[..24].to_vec())));
                assert_eq!(join_all(&logs, 2, lent, work), Ok((4, 3, WORDS_WITHOUT_0_1.to_vec())));
            }
        }
    }
    let (logs, lengths) = end_to_end(&[&TIDY[..], WITHOUT_0_1]);
    let (mut words, mut work) = ([7; 26], [7; 50]);
    assert_eq!(ward::join(&logs, &lengths, 2, &mut words, &mut work), Ok(ward::Joined { badges: 4, ticks: 3 }));
    assert_eq!((&words[..24], &words[24..]), (&WORDS_WITHOUT_0_1[..], &[7, 7][..]));
    assert_eq!((&work[..48], &work[48..]), (&[0; 48][..], &[7, 7][..]));
}

/// One receiver says 2–3 twice, from either side and in pieces, and another does not say it. Both say 0–1 in ticks 0 to 1.
#[test]
fn said_twice_by_one_receiver() {
    let other = b"BH\x04\x03CT\x00\x01\x00\x01ED\x01\x00\x00\x00";
    let both = words_of(&[2, 1, 0, 0, 2, 1, 0, 0, 0, 0, 0, 0]);
    let one = words_of(&[2, 1, 8, 4, 2, 1, 8, 4, 0, 0, 8, 4]);
    for twice in [
        &b"BH\x04\x03CT\x00\x01\x00\x01CT\x02\x03\x00\x02CT\x02\x03\x00\x02ED\x03\x00\x00\x00"[..],
        b"BH\x04\x03CT\x02\x03\x00\x02CT\x01\x00\x00\x01CT\x03\x02\x00\x02ED\x03\x00\x00\x00",
        b"BH\x04\x03CT\x02\x03\x00\x01CT\x03\x02\x01\x02CT\x03\x02\x00\x02CT\x01\x00\x00\x01ED\x04\x00\x00\x00",
    ] {
        for logs in [[twice, other], [other, twice]] {
            assert_eq!(join_all(&logs, 1, 24, 48), Ok((4, 3, one.clone())));
            assert_eq!(join_all(&logs, 2, 24, 48), Ok((4, 3, both.clone())));
        }
        assert_eq!(join_all(&[twice, other, other], 2, 24, 72), Ok((4, 3, both.clone())));
        assert_eq!(join_all(&[twice, other, twice], 2, 24, 72), Ok((4, 3, one.clone())));
        assert_eq!(join_all(&[twice, other, twice, twice], 4, 24, 96), Ok((4, 3, both.clone())));
    }
}

/// Two badges, and a tick for each set of receivers, in which just those hear them: it counts in the ticks whose number has q bits or more.
#[test]
fn heard_by_every_set_of_receivers() {
    for count in 2..=4usize {
        let sets = 0..1usize << count;
        let ticks = sets.len();
        let log = |receiver: usize| -> Vec<u8> {
            let heard = sets.clone().filter(|set| set >> receiver & 1 == 1).map(|set| [0, 1, set as u8, set as u8]);
            model::log_bytes(2, ticks as u8, &heard.collect::<Vec<_>>())
        };
        let logs: Vec<Vec<u8>> = (0..count).map(log).collect();
        for quorum in 1..=count {
            let words = sets.clone().flat_map(|set| if set.count_ones() as usize >= quorum { [2, 0, 1, 0] } else { [0; 4] });
            assert_eq!(join_all(&logs, quorum, 4 * ticks, 4 * ticks * count), Ok((2, ticks, words.collect())));
        }
    }
}

/// D1 twice, with the cut between them at every wrong place. The first is cut short in the record where it ends, though its bytes go on in the second, or
/// has bytes after its end. The same with another log before them.
#[test]
fn cut_at_every_wrong_place() {
    let logs = [&TIDY[..], TIDY, TIDY].concat();
    for cut in (0..34).chain(35..=68) {
        let record = if cut < 4 { 0 } else { 4 + (cut - 4) / 6 * 6 };
        let (number, offset) = if cut < 34 { (1, record) } else { (7, 34) };
        assert_eq!(join(&logs[..68], &[cut, 68 - cut], 2, 24, 48), Err((number, offset)));
        assert_eq!(join(&logs, &[34, cut, 68 - cut], 2, 24, 72), Err((number, 34 + offset)));
    }
}

/// Every byte of two of D1's logs changed to every value, against the model.
#[test]
fn d1_with_one_byte_changed() {
    for (k, changed) in with_one_byte_changed(&[&TIDY[..], MESSY].concat()).enumerate() {
        _ = join(&changed, &[34, 40], 1 + k % 2, 24, 48);
    }
    all_seen("join", &[2, 3, 4, 6, 19]);
}

/// 8,000 contacts are the most of each log: four such logs pass. One contact more is refused in each of them, and so is a bad one before it.
#[test]
fn most_contacts() {
    let (log, mut longer) = (long(4, 3, 8000), long(4, 3, 8001));
    let logs = [&log[..], &log, &log, &log];
    // each badge with the next from tick 0, 1 or 2 on, by turns: so in every tick
    let words = words_of(&[10, 5, 10, 5].repeat(3));
    for quorum in 1..=4 {
        assert_eq!(join_all(&logs, quorum, 24, 96), Ok((4, 3, words.clone())));
    }
    let refused = |place: usize, other: &[u8]| {
        let mut logs = logs.to_vec();
        logs[place] = other;
        join_all(&logs, 2, 24, 96)
    };
    for place in 0..4 {
        assert_eq!(refused(place, &longer), Err((5, 48010 * place + 48004)));
        assert_eq!(refused(place, &log[..48009]), Err((1, 48010 * place + 48004)));
        assert_eq!(refused(place, &[&log[..], b"B"].concat()), Err((7, 48010 * (place + 1))));
    }
    put_contact(&mut longer, 7999, [1, 1, 0, 0]);
    assert_eq!(refused(1, &longer), Err((4, 48010 + 47998)));
    all_seen("join", &[1, 4, 5, 7]);
}

/// All in contact all day, by all receivers but the second, which hears nobody: just enough words, and those that always suffice.
#[test]
fn largest_days() {
    for n in [64, 126] {
        let (full, empty) = (all_in_contact(n), model::log_bytes(n as u8, 96, &[]));
        let all = words_of(&(0..n).map(|u| model::full(n) & !(1 << u)).collect::<Vec<_>>()).repeat(96);
        for count in 2..=4 {
            let mut logs = vec![&full; count];
            logs[1] = &empty;
            for quorum in 1..=count {
                let words = if quorum < count { all.clone() } else { vec![0; all.len()] };
                for (lent, work) in [(all.len(), all.len() * count), (ward::WORDS, ward::JOIN_WORK_WORDS)] {
                    assert_eq!(join_all(&logs, quorum, lent, work), Ok((n, 96, words.clone())));
                }
            }
        }
    }
}
