//! Days in which badges are in contact by how their numbers differ in binary digits: many circles, which a rule gives. The number of badges is a
//! power of 2, at least 16.

use super::days::day_by;
use crate::model::{Day, Record, log_bytes};

/// So many contacts of n badges. Contact k, with s for k / n, is of badge k mod n and the one whose number differs from that in the binary digit s
/// mod 4 alone, in so many ticks up to tick s, one to three, or in all up to s where these are fewer. So every n contacts name n / 2 pairs, each from
/// both sides.
fn digit_contacts(n: usize, contacts: usize, length: usize) -> Vec<[u8; 4]> {
    let contact = |k: usize| {
        let (u, s) = (k % n, k / n);
        [u, u ^ 1 << (s % 4), (s + 1).saturating_sub(length), s].map(|x| x as u8)
    };
    (0..contacts).map(contact).collect()
}

/// The log of 96 ticks with these contacts.
pub fn digit_log(n: usize, contacts: usize, length: usize) -> Vec<u8> {
    log_bytes(n as u8, 96, &digit_contacts(n, contacts, length))
}

/// How many contacts it has of 64 badges, of three ticks, for a report of 5,040 records and 65,530 bytes, the longest that a listing shows of up to
/// 64 badges. The contact after these, of badges 0 and 1 in ticks 90 to 92, brings one record more.
pub const MOST_LISTED: usize = 64 * 92;
pub const ONE_MORE: Record = (1, 90, 92, 0b11);

/// Its groups, where it has so many times n contacts. Those that end with tick s hold throughout a span from f to l where s is l or more, and less
/// than f + length. Each badge is joined to one other for each such s, since their digits differ: that is the order, and it falls with each tick that
/// the span grows by.
pub fn digit_groups(n: usize, times: usize, length: usize) -> Vec<Record> {
    let spans = (0..=times - length).flat_map(|first| (first..first + length).map(move |last| (first, last)));
    spans.flat_map(|(first, last)| circles(n, first, last, (last..first + length).map(|s| 1 << (s % 4)).collect())).collect()
}

/// A log of 128 badges and 48 ticks, as large as a day that is listed may be: the contacts of two ticks that end with ticks 0 to 32, and in tick 40
/// so many pairs, badges 0 and 1, badges 2 and 3 and so on.
pub fn wide_log(pairs: usize) -> Vec<u8> {
    let pairs = (0..pairs as u8).map(|i| [2 * i + 1, 2 * i, 40, 40]);
    log_bytes(128, 48, &[digit_contacts(128, 33 * 128, 2), pairs.collect()].concat())
}

/// Its groups: on each of 32 spans of one tick 32 circles of order 2, on each of 32 spans of two ticks 64 of order 1, and the pairs.
pub fn wide_groups(pairs: usize) -> Vec<Record> {
    [digit_groups(128, 33, 2), (0..pairs).map(|i| (1, 40, 40, 0b11 << (2 * i))).collect()].concat()
}

/// How many pairs it has for a report of 3,120 records and 65,530 bytes, the longest that a listing shows of more than 64 badges.
pub const MOST_PAIRS: usize = 48;

/// A day of n badges in teams of a size that is a power of 2, at least 4: a team's members are all in contact, but for those whose numbers differ, in
/// binary without carry, by a number that goes from 1 to the size less one, tick by tick, and then round again.
pub fn team_day(n: usize, size: usize) -> Day {
    day_by(n, 96, |t, u, v| u / size == v / size && u ^ v != 1 + t % (size - 1))
}

/// Its groups. Each badge is joined throughout a span to those that differ from it by none of the numbers that come up in it; one tick more takes
/// away one number more, so there is a group on each span that leaves one.
pub fn team_groups(n: usize, size: usize) -> Vec<Record> {
    let spans = (0..96).flat_map(|first| (first..96.min(first + size - 2)).map(move |last| (first, last)));
    let left = |first, last| (1..size).filter(|c| (first..=last).all(|t| *c != 1 + t % (size - 1))).collect();
    spans.flat_map(|(first, last)| circles(n, first, last, left(first, last))).collect()
}

/// The records of n badges, each of which is joined to those that differ from it by one of some numbers, and by chains to those that differ by
/// several together.
fn circles(n: usize, first: usize, last: usize, numbers: Vec<usize>) -> Vec<Record> {
    let moved = |set: u128, c: &usize| -> u128 { (0..n).filter(|v| set >> (v ^ c) & 1 == 1).map(|v| 1 << v).sum() };
    // the circle of badge 0 has all numbers by which badges of one circle differ
    let differences = numbers.iter().fold(1, |circle, c| circle | moved(circle, c));
    let circles = (0..n).map(|u| (u, moved(differences, &u))).filter(|(u, circle)| circle.trailing_zeros() as usize == *u);
    circles.map(|(_, circle)| (numbers.len(), first, last, circle)).collect()
}

/// n badges in n / 2 pairs, other ones in each tick: two badges are in contact where their sum, counted round n, is the odd number 2t + 1, counted
/// so.
pub fn changing_pairs(n: usize) -> Day {
    day_by(n, 96, |t, u, v| (u + v) % n == (2 * t + 1) % n)
}

/// Its groups: each pair in its tick.
pub fn changing_groups(n: usize) -> Vec<Record> {
    let partner = |t: usize, u: usize| (2 * t + 1 + n - u) % n;
    let pairs = (0..96).flat_map(|t| (0..n).map(move |u| (t, u, partner(t, u))));
    pairs.filter(|(_, u, v)| u < v).map(|(t, u, v)| (1, t, t, 1 << u | 1 << v)).collect()
}
