//! Reports and plans in bytes.

/// A record of a report or a plan: order or score, first tick, last tick, members. In a report the members are those of one circle.
pub type Record = (usize, usize, usize, u64);

/// Records in bytes, after a header and before an end with their number.
fn record_bytes(header: &[u8], mark: &[u8; 2], records: &[Record]) -> Vec<u8> {
    let mut bytes = header.to_vec();
    for &(order, first, last, members) in records {
        bytes.extend(mark);
        bytes.extend([order as u8, first as u8, last as u8]);
        bytes.extend(members.to_le_bytes());
    }
    bytes.extend(b"ED");
    bytes.extend((records.len() as u32).to_le_bytes());
    bytes
}

pub fn report_bytes(n: usize, ticks: usize, groups: &[Record]) -> Vec<u8> {
    record_bytes(&[b'R', b'H', n as u8, ticks as u8], b"GR", groups)
}

pub fn plan_bytes(n: usize, ticks: usize, query: u64, parts: &[Record]) -> Vec<u8> {
    let mut header = vec![b'P', b'H', n as u8, ticks as u8, parts.len() as u8];
    header.extend(query.to_le_bytes());
    record_bytes(&header, b"PT", parts)
}
