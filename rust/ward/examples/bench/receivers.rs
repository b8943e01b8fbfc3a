//! The logs of several receivers of one day, from a fixed generator.

use crate::random::Random;

/// What so many receivers heard of a day: each has each contact record of the day's log with probability 3/4.
pub fn logs(log: &[u8], receivers: u64) -> Vec<Vec<u8>> {
    (1..=receivers).map(|seed| heard(log, &mut Random(seed))).collect()
}

fn heard(log: &[u8], random: &mut Random) -> Vec<u8> {
    let (header, contacts) = (&log[..4], &log[4..log.len() - 6]);
    let heard: Vec<&[u8]> = contacts.chunks(6).filter(|_| random.below(4) != 0).collect();
    let count = (heard.len() as u32).to_le_bytes();
    [header, &heard.concat(), b"ED", &count].concat()
}
