//! Several receivers: their logs judged in order, and the contacts that enough of them heard.

use super::{Day, Refusal, judge};

/// "number of logs or q outside its limits, or lengths that don't add up to the buffer": 18. Lengths add up as numbers without a bound.
fn check_receivers(size: usize, lengths: &[usize], quorum: usize) -> Result<(), Refusal> {
    let sum: u128 = lengths.iter().map(|length| *length as u128).sum();
    let good = (2..=4).contains(&lengths.len()) && (1..=lengths.len()).contains(&quorum) && sum == size as u128;
    if good { Ok(()) } else { Err((18, 0)) }
}

/// The day of each log, judged within its own length: the first refusal by 1 to 7, whose offset counts from the start of the buffer.
fn days_of(logs: &[u8], lengths: &[usize]) -> Result<Vec<Day>, Refusal> {
    let (mut days, mut start) = (Vec::new(), 0);
    for length in lengths {
        let (day, _) = judge(&logs[start..start + length]).map_err(|(number, offset)| (number, start + offset))?;
        days.push(day);
        start += length;
    }
    Ok(days)
}

/// "A contact counts if at least q receivers heard it": for each tick and pair the receivers are counted.
fn heard_by(days: &[Day], quorum: usize) -> Day {
    let mut joined = Day::empty(days[0].n, days[0].ticks);
    for t in 0..joined.ticks {
        for u in 0..joined.n {
            for v in u + 1..joined.n {
                if days.iter().filter(|day| day.met(t, u, v)).count() >= quorum {
                    joined.meet(t, u, v);
                }
            }
        }
    }
    joined
}

/// The day of logs that lie end to end, with so many words and work words lent: 18, the refusals of the logs, 19, 8.
pub fn join(logs: &[u8], lengths: &[usize], quorum: usize, words: usize, work: usize) -> Result<Day, Refusal> {
    check_receivers(logs.len(), lengths, quorum)?;
    let days = days_of(logs, lengths)?;
    let (n, ticks) = (days[0].n, days[0].ticks);
    if days.iter().any(|day| day.n != n || day.ticks != ticks) {
        return Err((19, 0));
    }
    if words < n * ticks || work < lengths.len() * n * ticks {
        return Err((8, 0));
    }
    Ok(heard_by(&days, quorum))
}
