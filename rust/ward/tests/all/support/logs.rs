//! Logs: random ones, damaged ones, and the longest.

use super::random::Random;
use crate::model;

/// Two different badges and a span of ticks.
fn random_contact(random: &mut Random, n: usize, ticks: usize) -> [u8; 4] {
    let a = random.below(n);
    let b = (a + 1 + random.below(n - 1)) % n;
    let first = random.below(ticks);
    let last = first + random.below(ticks - first);
    [a, b, first, last].map(|x| x as u8)
}

/// The pair of a contact from the other side: from its last tick on, or from the tick after it; or over the same ticks where the day ends.
fn piece_of(random: &mut Random, [a, b, first, last]: [u8; 4], ticks: usize) -> [u8; 4] {
    let from = last as usize + random.below(2);
    let to = from + random.below(3);
    if to < ticks { [b, a, from as u8, to as u8] } else { [b, a, first, last] }
}

/// A log with so many contacts, as several receivers would write them: pairs from either side, overlaps, repeats and pieces.
pub fn random_log(random: &mut Random, n: usize, ticks: usize, count: usize) -> Vec<u8> {
    let mut contacts: Vec<[u8; 4]> = Vec::new();
    while n > 1 && contacts.len() < count {
        let next = match contacts.last() {
            Some(&before) if random.below(3) == 0 => piece_of(random, before, ticks),
            _ => random_contact(random, n, ticks),
        };
        contacts.push(next);
    }
    model::log_bytes(n as u8, ticks as u8, &contacts)
}

/// A log cut, with bytes after it, with a byte too few or too many inside, or with bytes changed.
pub fn damage(random: &mut Random, log: &mut Vec<u8>) {
    let at = random.below(log.len());
    match random.below(6) {
        0 => log.truncate(at),
        1 => log.extend((0..=random.below(8)).map(|_| random.below(256) as u8)),
        2 => drop(log.remove(at)),
        3 => log.insert(at, random.below(256) as u8),
        _ => {
            for _ in 0..=random.below(2) {
                let (at, bound) = (random.below(log.len()), [8, 256][random.below(2)]);
                log[at] = random.below(bound) as u8;
            }
        }
    }
}

/// A log with so many contacts, most of them the same: each badge with the next, from either side, to the last tick.
pub fn long(n: usize, ticks: usize, count: usize) -> Vec<u8> {
    let contact = |k: usize| [k % n, (k + 1) % n, k % ticks, ticks - 1].map(|x| x as u8);
    model::log_bytes(n as u8, ticks as u8, &(0..count).map(contact).collect::<Vec<_>>())
}

/// Puts a contact as record k after the header.
pub fn put_contact(log: &mut [u8], k: usize, contact: [u8; 4]) {
    log[4 + 6 * k + 2..4 + 6 * k + 6].copy_from_slice(&contact);
}

/// The log of n badges and 96 ticks in which every two badges are in contact all day, the larger first: 2,016 contacts of 64 badges, 7,875 of 126.
/// More badges would take more than 8,000.
pub fn all_in_contact(n: usize) -> Vec<u8> {
    let pairs = (0..n as u8).flat_map(|a| (0..a).map(move |b| [a, b, 0, 95]));
    model::log_bytes(n as u8, 96, &pairs.collect::<Vec<_>>())
}

/// A log with each byte changed to each value, one at a time.
pub fn with_one_byte_changed(log: &[u8]) -> impl Iterator<Item = Vec<u8>> + '_ {
    (0..log.len()).flat_map(move |at| {
        (0..=255).map(move |value| {
            let mut changed = log.to_vec();
            changed[at] = value;
            changed
        })
    })
}
