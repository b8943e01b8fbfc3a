//! Several receivers of one shift: their logs end to end, random ones, and damaged ones.

use super::calls::join;
use super::days::random_day;
use super::logs::damage;
use super::random::Random;
use crate::model::{self, Day, Refusal};

/// Logs end to end, and how many bytes each takes.
pub fn end_to_end(logs: &[impl AsRef<[u8]>]) -> (Vec<u8>, Vec<usize>) {
    let logs: Vec<&[u8]> = logs.iter().map(|log| log.as_ref()).collect();
    (logs.concat(), logs.iter().map(|log| log.len()).collect())
}

/// What join makes of these logs, lent so many words and work words.
pub fn join_all(logs: &[impl AsRef<[u8]>], quorum: usize, lent: usize, work: usize) -> Result<(usize, usize, Vec<u64>), Refusal> {
    let (bytes, lengths) = end_to_end(logs);
    join(&bytes, &lengths, quorum, lent, work)
}

/// The log of a receiver that hears part of a day, with up to so many contacts, in any order: each run in pieces, of which each is left out, or said once
/// or twice, its pair from either side.
fn heard(random: &mut Random, day: &Day, most: usize) -> Vec<u8> {
    let mut contacts: Vec<[u8; 4]> = Vec::new();
    for [u, v, first, last] in day.runs() {
        let mut from = first;
        while from <= last {
            let to = from + random.below((last - from) as usize + 1) as u8;
            contacts.extend((0..random.below(3)).map(|_| if random.below(2) == 0 { [u, v, from, to] } else { [v, u, from, to] }));
            from = to + 1;
        }
    }
    for k in 0..contacts.len() {
        contacts.swap(k, random.below(k + 1));
    }
    contacts.truncate(most);
    model::log_bytes(day.n as u8, day.ticks as u8, &contacts)
}

/// The logs of from 2 to 4 receivers of a random day, each with up to so many contacts.
pub fn random_receivers(random: &mut Random, n: usize, ticks: usize, most: usize) -> Vec<Vec<u8>> {
    let (density, keep) = (random.below(101), random.below(101));
    let day = random_day(random, n, ticks, density, keep);
    (0..2 + random.below(3)).map(|_| heard(random, &day, most)).collect()
}

/// Gives one of the logs an n or a T that is one more or less.
pub fn resize_one(random: &mut Random, logs: &mut [Vec<u8>]) {
    let size = &mut logs[random.below(logs.len())][2 + random.below(2)];
    *size = if random.below(2) == 0 { *size + 1 } else { *size - 1 };
}

/// Damages one of the logs, moves the end of one by a byte, or makes of them up to 6 logs, also none.
pub fn damage_one(random: &mut Random, logs: &mut Vec<Vec<u8>>) {
    match random.below(4) {
        0 => move_end(random, logs),
        1 => *logs = (0..random.below(7)).map(|k| logs[k % logs.len()].clone()).collect(),
        _ => {
            let at = random.below(logs.len());
            damage(random, &mut logs[at]);
        }
    }
}

/// Gives the last byte of a log to the next, or takes the first byte of the next.
fn move_end(random: &mut Random, logs: &mut [Vec<u8>]) {
    let at = random.below(logs.len() - 1);
    if random.below(2) == 0 {
        let byte = logs[at].pop().expect("a byte");
        logs[at + 1].insert(0, byte);
    } else {
        let byte = logs[at + 1].remove(0);
        logs[at].push(byte);
    }
}
