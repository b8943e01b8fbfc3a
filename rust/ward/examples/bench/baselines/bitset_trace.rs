//! The trace with sets in words: who may pass on is one set, which takes in, after each tick, those that were in contact with one of it in that tick.

use super::{full, is_day};

pub fn trace(words: &[u64], n: usize, ticks: usize, index: usize, start: usize, out: &mut [u8]) -> Option<usize> {
    if !is_day(words, n, ticks) || index >= n || start >= ticks {
        return None;
    }
    let (reached_in, sources) = out.get_mut(..2 * n)?.split_at_mut(n);
    reached_in.fill(ward::NONE);
    sources.fill(ward::NONE);
    reached_in[index] = start as u8;
    let (mut passing, mut left) = (1 << index, full(n) & !(1 << index));
    for (t, tick) in words[..2 * n * ticks].chunks_exact(2 * n).enumerate().skip(start) {
        let mut rest = left;
        while rest != 0 {
            let u = rest.trailing_zeros() as usize;
            rest &= rest - 1;
            let met = tick[2 * u] & passing;
            if met != 0 {
                reached_in[u] = t as u8;
                sources[u] = met.trailing_zeros() as u8;
                left &= !(1 << u);
            }
        }
        passing = full(n) & !left;
    }
    Some(2 * n)
}
