//! Core numbers: days whose numbers are written by hand, and graphs whose numbers a formula gives.

use crate::support::d1::{d1, turned};
use crate::support::days::day_by;
use crate::support::handed::Handed;
use crate::support::random::Random;
use crate::support::sets::words_of;

/// Document 01 has the spans 0 to 1 and 0 to 2.
#[test]
fn spans_of_d1() {
    for (first, last, numbers) in
        [(0, 0, [2, 2, 2, 1]), (0, 1, [2, 2, 2, 1]), (0, 2, [0, 0, 1, 1]), (1, 1, [2, 2, 2, 1]), (1, 2, [0, 0, 1, 1]), (2, 2, [0, 0, 1, 1])]
    {
        for lent in [24, 26] {
            assert_eq!(d1(lent).core_numbers(first, last, 80), Ok(numbers.to_vec()));
        }
    }
}

/// Three badges of which the first changes its partner: 0–1 in tick 0, 0–2 in tick 1. That counts for no span that has both ticks.
#[test]
fn partner_that_changes() {
    let day = Handed::new(&words_of(&[2, 1, 0, 4, 0, 1]), 3, 2);
    assert_eq!(day.core_numbers(0, 0, 3), Ok(vec![1, 1, 0]));
    assert_eq!(day.core_numbers(1, 1, 3), Ok(vec![1, 0, 1]));
    assert_eq!(day.core_numbers(0, 1, 3), Ok(vec![0, 0, 0]));
}

/// A buffer of every length up to 80.
#[test]
fn every_buffer() {
    for room in 0..=80 {
        let numbers = if room < 4 { Err((9, 0)) } else { Ok(vec![2, 2, 2, 1]) };
        assert_eq!(d1(24).core_numbers(0, 1, room), numbers);
    }
}

/// Each bit of word 24 turned over, which is after D1's words; and of words 16 and 17, after the words of its first two ticks.
#[test]
fn words_after_the_day() {
    for v in 0..64 {
        assert_eq!(Handed::new(&turned(24, v)[..25], 4, 3).core_numbers(0, 1, 4), Ok(vec![2, 2, 2, 1]));
        assert_eq!(Handed::new(&turned(16, v), 4, 2).core_numbers(0, 1, 4), Ok(vec![2, 2, 2, 1]));
        assert_eq!(Handed::new(&turned(17, v), 4, 2).core_numbers(0, 1, 4), Ok(vec![2, 2, 2, 1]));
    }
}

/// A graph in which the badges below some c are all in contact, and each badge with the next; in a ring the last is in contact with the first, too.
/// With a clique of 2 it is a path, or a ring.
#[derive(Clone, Copy)]
pub struct Shape {
    pub badges: usize,
    pub clique: usize,
    pub ring: bool,
}

impl Shape {
    /// Whether a badge is in contact with a larger one.
    pub fn joined(self, u: usize, v: usize) -> bool {
        v < self.clique || u + 1 == v || (self.ring && u == 0 && v + 1 == self.badges)
    }

    /// 2 in a ring, c − 1 in a clique of c, and 1 on a tail or a path.
    fn number(self, u: usize) -> u8 {
        if self.ring {
            2
        } else if u < self.clique {
            self.clique as u8 - 1
        } else {
            1
        }
    }

    /// A day that has the graph in each of so many ticks, with other words after it: its numbers on all its ticks, and on its last.
    fn has_its_numbers(self, random: &mut Random, ticks: usize) {
        let mut words = day_by(self.badges, ticks, |_, u, v| self.joined(u, v)).words();
        words.extend((0..random.below(100)).map(|_| random.next()));
        let day = Handed::new(&words, self.badges, ticks);
        let numbers: Vec<u8> = (0..self.badges).map(|u| self.number(u)).collect();
        assert_eq!(day.core_numbers(0, ticks - 1, 140), Ok(numbers.clone()));
        assert_eq!(day.core_numbers(ticks - 1, ticks - 1, self.badges), Ok(numbers));
    }
}

fn shapes(from: usize, clique: impl Fn(usize) -> usize, ring: bool) {
    let mut random = Random(31);
    for badges in from..=128 {
        let shape = Shape { badges, clique: clique(badges), ring };
        for ticks in 1..=3 {
            shape.has_its_numbers(&mut random, ticks);
        }
    }
}

#[test]
fn paths() {
    shapes(2, |_| 2, false);
}

#[test]
fn rings() {
    shapes(3, |_| 2, true);
}

/// Cliques of three badges with a tail, of about half of the badges with a tail, and of all badges.
#[test]
fn cliques() {
    shapes(3, |_| 3, false);
    shapes(4, |badges| badges / 2 + 2, false);
    shapes(1, |badges| badges, false);
}

#[test]
fn all_in_contact() {
    for badges in [64, 65, 128] {
        let shape = Shape { badges, clique: badges, ring: false };
        for ticks in [1, 2, 96] {
            shape.has_its_numbers(&mut Random(32), ticks);
        }
    }
}
