//! The text of a listing: its lines, and pieces of whole lines.

use super::{Record, Refusal};

/// "First line: n, T, number of groups. Then per group its order, first and last tick, members rising."
pub fn group_lines(n: usize, ticks: usize, groups: &[Record]) -> Vec<String> {
    let mut lines = vec![format!("badges {n} ticks {ticks} groups {}\n", groups.len())];
    for &(order, first, last, members) in groups {
        let badges: String = (0..n).filter(|v| members >> v & 1 == 1).map(|v| format!(" {v}")).collect();
        lines.push(format!("order {order} ticks {first} to {last} badges{badges}\n"));
    }
    lines
}

/// "A refusal prints `refused N at OFFSET`."
pub fn refusal_lines((number, offset): Refusal) -> Vec<String> {
    vec![format!("refused {number} at {offset}\n")]
}

/// As many whole lines, from a place on, as so many bytes hold: the place of the next line, and the text.
pub fn piece(lines: &[String], from: usize, room: usize) -> (usize, String) {
    let (mut next, mut text) = (from, String::new());
    while next < lines.len() && text.len() + lines[next].len() <= room {
        text += &lines[next];
        next += 1;
    }
    (next, text)
}
