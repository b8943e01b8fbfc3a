//! Document 01's day D1: n 4, T 3, contacts 0–1, 0–2 and 1–2 in ticks 0 to 1, and 2–3 in ticks 0 to 2.

use super::handed::Handed;

/// Its tidy log.
pub const TIDY: &[u8; 34] = b"BH\x04\x03CT\x00\x01\x00\x01CT\x00\x02\x00\x01CT\x01\x02\x00\x01CT\x02\x03\x00\x02ED\x04\x00\x00\x00";

/// The log of 40 bytes, with 0–1 given last, in two pieces, once from either side.
pub const MESSY: &[u8; 40] =
    b"BH\x04\x03CT\x00\x02\x00\x01CT\x01\x02\x00\x01CT\x02\x03\x00\x02CT\x01\x00\x01\x01CT\x00\x01\x00\x00ED\x05\x00\x00\x00";

/// Its twenty-four words, of which every second one has badges from 64 on, and two words more that are no day's.
pub const WORDS: [u64; 26] = [6, 0, 5, 0, 11, 0, 4, 0, 6, 0, 5, 0, 11, 0, 4, 0, 0, 0, 0, 0, 8, 0, 4, 0, u64::MAX, 1];

/// D1, with so many of these words lent.
pub fn d1(lent: usize) -> Handed {
    Handed::new(&WORDS[..lent], 4, 3)
}

/// The words with one bit turned over, bit v of the word at a place: of the set of badge u in tick t that is badge v's in place 2(4t + u), and badge
/// 64 + v's in the next.
pub fn turned(place: usize, v: usize) -> [u64; 26] {
    let mut words = WORDS;
    words[place] ^= 1 << v;
    words
}
