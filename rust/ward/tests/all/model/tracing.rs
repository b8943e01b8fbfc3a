//! The exposure trace, by following chains of contacts.

use super::{Day, Refusal};

/// "255 if never", and of a source "255 where there is none".
const NONE: u8 = 255;

/// "index of n or more or s of T or more": 22.
pub fn check_start(day: &Day, index: usize, start: usize) -> Result<(), Refusal> {
    if index >= day.n || start >= day.ticks { Err((22, 0)) } else { Ok(()) }
}

/// For each badge and tick, whether a chain arrives at the badge in the tick: "A chain uses contacts in strictly rising ticks, the first in s or
/// later". Chains are followed contact by contact: one that has arrived at a badge, or starts at the index, goes on by each contact of that badge
/// from the next tick on, or from s on; as far as none that arrived there sooner has gone on already.
fn arrivals(day: &Day, index: usize, start: usize) -> Vec<Vec<bool>> {
    let (mut arrived, mut gone_on) = (vec![vec![false; day.ticks]; day.n], vec![day.ticks; day.n]);
    let mut waiting = vec![(index, start)];
    while let Some((u, from)) = waiting.pop() {
        let until = gone_on[u];
        gone_on[u] = until.min(from);
        for t in from..until {
            for v in (0..day.n).filter(|&v| day.met(t, u, v)) {
                if !arrived[v][t] {
                    arrived[v][t] = true;
                    waiting.push((v, t + 1));
                }
            }
        }
    }
    arrived
}

/// "for each badge the earliest tick in which it can have been reached"; "the index has s".
fn earliest(day: &Day, index: usize, start: usize) -> Vec<Option<usize>> {
    let mut ticks: Vec<Option<usize>> = arrivals(day, index, start).iter().map(|arrived| arrived.iter().position(|arrives| *arrives)).collect();
    ticks[index] = Some(start);
    ticks
}

/// Of a badge that was reached in a tick, "the smallest badge in contact with it in that tick that may pass on by then": "the index passes on from s,
/// every other badge only after its own tick".
fn source(day: &Day, index: usize, ticks: &[Option<usize>], u: usize, t: usize) -> Option<usize> {
    let passes_on = |v: usize| ticks[v].is_some_and(|own| if v == index { own <= t } else { own < t });
    (0..day.n).find(|&v| day.met(t, u, v) && passes_on(v))
}

/// "The result is 2n bytes, ticks first." The index shows no source.
pub fn trace(day: &Day, index: usize, start: usize) -> Vec<u8> {
    let ticks = earliest(day, index, start);
    let source = |u: usize| ticks[u].filter(|_| u != index).and_then(|t| source(day, index, &ticks, u, t));
    let sources: Vec<Option<usize>> = (0..day.n).map(source).collect();
    ticks.iter().chain(&sources).map(|number| number.map_or(NONE, |number| number as u8)).collect()
}
