//! Read, join and tidy with lent memory, each against the model: the answer, and every byte, word and length that was lent.

use super::lent::Lent;
use super::seen::refusal;
use crate::model::{self, Day, Refusal};

/// What read makes of a log, lent so many words: n, T and the number of contact records.
pub fn read(log: &[u8], lent: usize) -> Result<(usize, usize, usize), Refusal> {
    let judged = day_of(log, lent);
    let (mut bytes, mut words) = (Lent::holding(log), Lent::room(lent));
    let answer = ward::read(bytes.slice(), words.slice()).map_err(|r| refusal("read", r));
    let answer = answer.map(|day| (day.badges, day.ticks, day.contacts));
    assert_eq!(answer, judged.as_ref().map(|(day, contacts)| (day.n, day.ticks, *contacts)).map_err(|r| *r));
    words.holds(&words_of(&judged));
    bytes.is_unchanged();
    answer
}

/// The day that join makes of logs that lie end to end, lent so many words and work words: n, T and the day words. On success it leaves as many work
/// words 0 for each log as the day has words.
pub fn join(logs: &[u8], lengths: &[usize], quorum: usize, lent: usize, work: usize) -> Result<(usize, usize, Vec<u64>), Refusal> {
    let judged = model::join(logs, lengths, quorum, lent, work);
    let (mut bytes, mut sizes, mut words, mut cleared) = (Lent::holding(logs), Lent::holding(lengths), Lent::room(lent), Lent::room(work));
    let answer = ward::join(bytes.slice(), sizes.slice(), quorum, words.slice(), cleared.slice()).map_err(|r| refusal("join", r));
    let answer = answer.map(|day| (day.badges, day.ticks));
    assert_eq!(answer, judged.as_ref().map(|day| (day.n, day.ticks)).map_err(|r| *r));
    let joined = judged.map_or(Vec::new(), |day| day.words());
    words.holds(&joined);
    cleared.holds(&vec![0; lengths.len() * joined.len()]);
    bytes.is_unchanged();
    sizes.is_unchanged();
    answer.map(|(n, ticks)| (n, ticks, joined))
}

/// The tidy log that tidy makes of a log, lent so many words and bytes. The work words hold the day once the log and 8 are passed, whatever comes of
/// the buffer.
pub fn tidy(log: &[u8], lent: usize, room: usize) -> Result<Vec<u8>, Refusal> {
    let judged = day_of(log, lent);
    let (mut bytes, mut work, mut out) = (Lent::holding(log), Lent::room(lent), Lent::room(room));
    let size = ward::tidy(bytes.slice(), work.slice(), out.slice()).map_err(|r| refusal("tidy", r));
    let tidied = judged.as_ref().map(|(day, _)| model::log_bytes(day.n as u8, day.ticks as u8, &day.runs())).map_err(|r| *r);
    let written = tidied.and_then(|bytes| model::delivered(bytes, room));
    assert_eq!(size, written.as_ref().map(Vec::len).map_err(|r| *r));
    work.holds(&words_of(&judged));
    out.holds(written.as_deref().unwrap_or(&[]));
    bytes.is_unchanged();
    written
}

/// The day of a log and the number of its contact records: the log's refusals, then 8.
pub fn day_of(log: &[u8], lent: usize) -> Result<(Day, usize), Refusal> {
    let judged = model::judge(log)?;
    if lent < model::words_for(judged.0.n, judged.0.ticks) { Err((8, 0)) } else { Ok(judged) }
}

fn words_of(judged: &Result<(Day, usize), Refusal>) -> Vec<u64> {
    judged.as_ref().map_or(Vec::new(), |(day, _)| day.words())
}
