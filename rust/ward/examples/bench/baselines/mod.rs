//! Other ways to make the report, the plan and the trace, each with the checks of the call and the encoding: 10, 8, 11 and 9 for a report, for a plan
//! also 13 and 14, and for a trace also 22. They take days of up to 64 badges, and hold a set in one word: the lower of its two, of which the upper
//! is 0.

pub mod algorithm2;
pub mod bitset_plan;
pub mod bitset_trace;
pub mod bitsets;
pub mod lists;

/// A circle of a maximal core, or a part of a plan: order or score, first tick, last tick, members.
pub type Group = (u8, usize, usize, u64);

/// All badges below n.
fn full(n: usize) -> u64 {
    !0 >> (64 - n)
}

/// The checks 10, 8 and 11.
fn is_day(words: &[u64], n: usize, ticks: usize) -> bool {
    if !(1..=64).contains(&n) || !(1..=96).contains(&ticks) || words.len() < 2 * n * ticks {
        return false;
    }
    let outside = !full(n);
    for tick in words[..2 * n * ticks].chunks_exact(2 * n) {
        for (u, row) in tick.chunks_exact(2).enumerate() {
            if row[0] & (1 << u | outside) != 0 || row[1] != 0 {
                return false;
            }
            let mut rest = row[0];
            while rest != 0 {
                if tick[2 * rest.trailing_zeros() as usize] >> u & 1 == 0 {
                    return false;
                }
                rest &= rest - 1;
            }
        }
    }
    true
}

/// Measures a report or a plan, a header, a record with this mark for each group and an end, and writes it if it fits.
fn encode(header: &[u8], mark: [u8; 2], groups: &[Group], out: &mut [u8]) -> Option<usize> {
    let size = header.len() + 13 * groups.len() + 6;
    let (start, rest) = out.get_mut(..size)?.split_at_mut(header.len());
    let (records, end) = rest.split_at_mut(13 * groups.len());
    start.copy_from_slice(header);
    for (record, &(order, first, last, members)) in records.chunks_exact_mut(13).zip(groups) {
        record[..5].copy_from_slice(&[mark[0], mark[1], order, first as u8, last as u8]);
        record[5..].copy_from_slice(&members.to_le_bytes());
    }
    end[..2].copy_from_slice(b"ED");
    end[2..].copy_from_slice(&(groups.len() as u32).to_le_bytes());
    Some(size)
}

fn encode_report(n: usize, ticks: usize, groups: &[Group], out: &mut [u8]) -> Option<usize> {
    encode(&[b'R', b'H', n as u8, ticks as u8], *b"GR", groups, out)
}

fn encode_plan(n: usize, ticks: usize, query: u64, parts: &[Group], out: &mut [u8]) -> Option<usize> {
    let mut header = [b'P', b'H', n as u8, ticks as u8, parts.len() as u8, 0, 0, 0, 0, 0, 0, 0, 0];
    header[5..].copy_from_slice(&query.to_le_bytes());
    encode(&header, *b"PT", parts, out)
}

fn members(badges: impl Iterator<Item = usize>) -> u64 {
    badges.map(|u| 1 << u).sum()
}
