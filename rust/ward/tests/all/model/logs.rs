//! The bytes of a log, and judging them.

use super::{Day, Refusal, within_limits};

/// The bytes of a log.
pub fn log_bytes(n: u8, ticks: u8, contacts: &[[u8; 4]]) -> Vec<u8> {
    let mut log = vec![b'B', b'H', n, ticks];
    for contact in contacts {
        log.extend(b"CT");
        log.extend(contact);
    }
    log.extend(b"ED");
    log.extend((contacts.len() as u32).to_le_bytes());
    log
}

/// Judges a log: its day and the number of its contact records, or the refusal by 1 to 7.
pub fn judge(log: &[u8]) -> Result<(Day, usize), Refusal> {
    if log.len() < 2 {
        return Err((1, 0));
    }
    if &log[..2] != b"BH" {
        return Err((2, 0));
    }
    if log.len() < 4 {
        return Err((1, 0));
    }
    let (n, ticks) = (log[2] as usize, log[3] as usize);
    if !within_limits(n, ticks) {
        return Err((3, 0));
    }
    let mut day = Day::empty(n, ticks);
    let (mut at, mut count) = (4, 0);
    loop {
        let rest = &log[at..];
        if rest.len() < 2 {
            return Err((1, at));
        }
        match &rest[..2] {
            b"CT" if count == 8000 => return Err((5, at)),
            b"CT" | b"ED" if rest.len() < 6 => return Err((1, at)),
            b"CT" => contact(&mut day, &rest[2..6]).ok_or((4, at))?,
            b"ED" => {
                if u32::from_le_bytes([rest[2], rest[3], rest[4], rest[5]]) as usize != count {
                    return Err((6, at));
                }
                return if rest.len() > 6 { Err((7, at + 6)) } else { Ok((day, count)) };
            }
            _ => return Err((2, at)),
        }
        count += 1;
        at += 6;
    }
}

fn contact(day: &mut Day, fields: &[u8]) -> Option<()> {
    let [a, b, first, last] = [fields[0], fields[1], fields[2], fields[3]].map(usize::from);
    if a == b || a >= day.n || b >= day.n || first > last || last >= day.ticks {
        return None;
    }
    for t in first..=last {
        day.meet(t, a, b);
    }
    Some(())
}
