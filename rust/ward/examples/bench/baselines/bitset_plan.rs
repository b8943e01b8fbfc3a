//! The plan with bitsets: the scores of all spans, found as the report finds its orders; from them, with one part more each time, the greatest sums of
//! the ticks from a tick on; and by these the parts from the first on, each with the smallest end that the greatest sum allows.

use super::bitsets::{core, Lines};
use super::{encode_plan, full, is_day, Group};

/// The scores of the spans from one first tick, or the greatest sums of the ticks from each tick on, 96 times 63 at most.
type Line = [u16; 97];

/// The sums of a part from a first tick and the best that follows it, by the part's end: from `first` to the tick before `stop`.
fn sums<'a>(scores: &'a Line, after: &'a Line, first: usize, stop: usize) -> impl Iterator<Item = u16> + 'a {
    scores[first..stop].iter().zip(&after[first + 1..=stop]).map(|(score, sum)| score + sum)
}

/// The last ticks of the parts: of the cuttings with the greatest sum, the one whose list of them comes first.
fn ends(scores: &[Line], parts: usize) -> Vec<usize> {
    let ticks = scores.len();
    // best[c][t]: the greatest sum of the ticks from t on, with c cuts; for those t alone that leave a tick for each part before and after
    let mut best = vec![[0; 97]; parts];
    for t in parts - 1..ticks {
        best[0][t] = scores[t][ticks - 1];
    }
    for c in 1..parts - 1 {
        for t in parts - 1 - c..ticks - c {
            best[c][t] = sums(&scores[t], &best[c - 1], t, ticks - c).fold(0, u16::max);
        }
    }
    let (mut ends, mut first) = (Vec::with_capacity(parts), 0);
    for c in (1..parts).rev() {
        let sums = || sums(&scores[first], &best[c - 1], first, ticks - c);
        let greatest = sums().fold(0, u16::max);
        let end = first + sums().position(|sum| sum == greatest).expect("an end with that sum");
        ends.push(end);
        first = end + 1;
    }
    ends.push(ticks - 1);
    ends
}

/// The members of a part with that score, whose words these are: its core of that order, and all n badges for score 0.
fn members(words: &[u64], n: usize, query: u64, score: u16) -> u64 {
    if score == 0 {
        return full(n);
    }
    let mut rows = [!0; 64];
    for tick in words.chunks_exact(2 * n) {
        for (row, set) in rows.iter_mut().zip(tick.chunks_exact(2)) {
            *row &= set[0];
        }
    }
    core(&rows, full(n), query, score as u32).expect("a core of that score").0
}

pub fn plan(words: &[u64], n: usize, ticks: usize, query: u64, parts: usize, out: &mut [u8]) -> Option<usize> {
    if !is_day(words, n, ticks) || query & !full(n) != 0 || parts == 0 || parts > ticks {
        return None;
    }
    let mut lines = Lines::new(words, n, ticks);
    let scores: Vec<Line> = (0..ticks)
        .map(|first| {
            lines.walk(first, query, |_, _, _, _| {});
            lines.scores.map(|score| score as u16)
        })
        .collect();
    let (mut shown, mut first): (Vec<Group>, usize) = (Vec::with_capacity(parts), 0);
    for last in ends(&scores, parts) {
        let score = scores[first][last];
        shown.push((score as u8, first, last, members(&words[2 * first * n..2 * (last + 1) * n], n, query, score)));
        first = last + 1;
    }
    encode_plan(n, ticks, query, &shown, out)
}
