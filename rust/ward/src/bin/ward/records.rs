//! The records of a log in bytes, a line each: in hexadecimal, and in words.

/// The bytes of the header, and of every record after it.
const HEADER: usize = 4;
const RECORD: usize = 6;

/// The records of a log, or of the part of one that was accepted, each with its offset.
pub fn whole(log: &[u8]) -> impl Iterator<Item = (usize, &[u8])> {
    let (header, rest) = log.split_at(HEADER.min(log.len()));
    let later = rest.chunks(RECORD).enumerate().map(|(place, record)| (HEADER + RECORD * place, record));
    std::iter::once((0, header)).filter(|header| !header.1.is_empty()).chain(later)
}

/// A log that was accepted, a record a line, each explained.
pub fn explained(log: &[u8]) -> String {
    whole(log).map(|(_, record)| line(record) + "\n").collect()
}

/// A record, explained.
pub fn line(record: &[u8]) -> String {
    beside(record, &in_words(record))
}

/// Bytes, and beside them what they are.
pub fn beside(bytes: &[u8], words: &str) -> String {
    let bytes: Vec<String> = bytes.iter().map(|byte| format!("{byte:02x}")).collect();
    format!("{:<19}{words}", bytes.join(" "))
}

/// What a record says; or that it is none, or none that is whole.
fn in_words(record: &[u8]) -> String {
    match *record {
        [b'B', b'H', n, t] => format!("BH: n {n}, T {t}"),
        [b'C', b'T', a, b, first, last] if first == last => format!("CT: badges {a} and {b}, tick {first}"),
        [b'C', b'T', a, b, first, last] => format!("CT: badges {a} and {b}, ticks {first} to {last}"),
        [b'E', b'D', a, b, c, d] => match u32::from_le_bytes([a, b, c, d]) {
            1 => String::from("ED: 1 CT record"),
            count => format!("ED: {count} CT records"),
        },
        [b'B', b'H', ..] => String::from("BH, not whole"),
        [b'C', b'T', ..] => String::from("CT, not whole"),
        [b'E', b'D', ..] => String::from("ED, not whole"),
        [] => String::from("a record must start here"),
        [_] => String::from("a mark, not whole"),
        _ => String::from("no record that a log has"),
    }
}

/// The bytes that are shown of the record at a place where a log is refused: as many as the record would have, or as there are.
pub fn refused_at(log: &[u8], offset: usize) -> &[u8] {
    let rest = &log[offset.min(log.len())..];
    let size = if rest.starts_with(b"BH") { HEADER } else { RECORD };
    &rest[..size.min(rest.len())]
}
