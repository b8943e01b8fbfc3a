//! Whether two logs mean the same, by their tidied bytes; and if not, what only one of them has.

use crate::arguments::Given;
use crate::commands::tidied;
use crate::failure::Failure;
use crate::files::shown;
use crate::{Said, json, records};
use std::collections::BTreeMap;

/// So many of the contacts that only one log has are printed, of each.
const PRINTED: usize = 10;

/// A pair in contact from a first to a last tick.
pub struct Run {
    pub pair: (u8, u8),
    pub first: u32,
    pub last: u32,
}

/// One of the two logs: its n and T, and the contacts that it has and the other has not, by pair and then by tick.
pub struct Side {
    name: String,
    pub badges: u8,
    pub ticks: u8,
    pub only: Vec<Run>,
}

pub type Sides = [Side; 2];

pub fn same(given: &Given) -> Result<Said, Failure> {
    let [a, b] = [tidied(&given.files[0])?, tidied(&given.files[1])?];
    let same = a == b;
    let pairs = [&a, &b].map(|log| ticks_of_pairs(log));
    let side =
        |this: usize, log: &[u8]| Side { name: shown(&given.files[this]), badges: log[2], ticks: log[3], only: only(&pairs[this], &pairs[1 - this]) };
    let sides = [side(0, &a), side(1, &b)];
    let out = if given.has("--json") { json::sides(same, &sides) } else { text(same, &sides) };
    Ok(Said { status: u8::from(!same), ..Said::done(out) })
}

/// The ticks in which each pair of a tidied log is in contact, bit t for tick t.
fn ticks_of_pairs(log: &[u8]) -> BTreeMap<(u8, u8), u128> {
    let mut pairs = BTreeMap::new();
    for (_, record) in records::whole(log) {
        if let [b'C', b'T', a, b, first, last] = *record {
            *pairs.entry((a, b)).or_default() |= (first..=last).fold(0, |ticks, tick| ticks | 1 << tick);
        }
    }
    pairs
}

/// The runs of ticks that pairs have here and not there.
fn only(here: &BTreeMap<(u8, u8), u128>, there: &BTreeMap<(u8, u8), u128>) -> Vec<Run> {
    here.iter().flat_map(|(pair, ticks)| runs(*pair, ticks & !there.get(pair).unwrap_or(&0))).collect()
}

/// The unbroken runs of a set of ticks, of which the last bit is in no day.
fn runs(pair: (u8, u8), mut ticks: u128) -> Vec<Run> {
    let mut runs = Vec::new();
    while ticks != 0 {
        let first = ticks.trailing_zeros();
        let last = first + (ticks >> first).trailing_ones() - 1;
        ticks &= !0 << (last + 1);
        runs.push(Run { pair, first, last });
    }
    runs
}

fn text(same: bool, sides: &Sides) -> String {
    if same {
        return String::from("same\n");
    }
    let [a, b] = sides;
    let differ = |what: &str, here: u8, there: u8| match here == there {
        true => String::new(),
        false => format!("{what}: {here} in {}, {there} in {}\n", a.name, b.name),
    };
    let sizes = differ("badges", a.badges, b.badges) + &differ("ticks", a.ticks, b.ticks);
    String::from("different\n") + &sizes + &only_in(a) + &only_in(b)
}

fn only_in(side: &Side) -> String {
    let run = |run: &Run| format!("only in {}: badges {} {} ticks {} to {}\n", side.name, run.pair.0, run.pair.1, run.first, run.last);
    let lines: String = side.only.iter().take(PRINTED).map(run).collect();
    match side.only.len().saturating_sub(PRINTED) {
        0 => lines,
        more => lines + &format!("only in {}: {more} more\n", side.name),
    }
}
