//! The calls that C does not have: the listing in pieces, and the cores of any rows (crates/probes).

use crate::model::Refusal;

#[link(name = "probes", kind = "static")]
extern "C" {
    fn probe_listing(
        log: *const u8,
        log_len: usize,
        words: *mut u64,
        words_len: usize,
        report: *mut u8,
        report_len: usize,
        from: usize,
        out: *mut u8,
        out_len: usize,
        answer: *mut [u64; 5],
    );
    fn probe_lines(size: usize, report: *const u8, report_len: usize, from: usize, out: *mut u8, out_len: usize, answer: *mut [u64; 5]);
    fn probe_peel(rows: *const RowWords, base_low: u64, base_high: u64, order: usize, out: *mut RowWords, answer: *mut [u64; 3]);
    fn probe_core_numbers(rows: *const RowWords, base_low: u64, base_high: u64, out: *mut [u8; 128]);
    fn probe_highest_core(
        rows: *const RowWords,
        base_low: u64,
        base_high: u64,
        query_low: u64,
        query_high: u64,
        above: u8,
        most: u8,
        out: *mut RowWords,
        answer: *mut [u64; 3],
    );
}

/// One row a badge; and the same in words, two a row, lower badges first.
pub type Rows = [u128; 128];
type RowWords = [u64; 256];

fn halves(set: u128) -> [u64; 2] {
    [set as u64, (set >> 64) as u64]
}

fn whole(low: u64, high: u64) -> u128 {
    u128::from(high) << 64 | u128::from(low)
}

fn to_words(rows: &Rows) -> RowWords {
    std::array::from_fn(|place| halves(rows[place / 2])[place % 2])
}

fn to_rows(words: &RowWords) -> Rows {
    std::array::from_fn(|u| whole(words[2 * u], words[2 * u + 1]))
}

/// What prepare answered, the number of the report's bytes or its refusal; the place of the next line; and the number of the piece's bytes.
pub type Piece = (Result<usize, Refusal>, usize, usize);

fn piece([number, offset, size, next, bytes]: [u64; 5]) -> Piece {
    let prepared = if number == 0 { Ok(size as usize) } else { Err((number as u8, offset as usize)) };
    assert!(number == 0 && offset == 0 || number <= 9 && size == 0, "an answer of prepare");
    (prepared, next as usize, bytes as usize)
}

/// Prepares the listing of a log, and puts its lines from a place on into a buffer.
pub fn listing(log: &[u8], words: &mut [u64], report: &mut [u8], from: usize, out: &mut [u8]) -> Piece {
    let mut answer = [u64::MAX; 5];
    let (words_len, report_len, out_len) = (words.len(), report.len(), out.len());
    unsafe {
        probe_listing(
            log.as_ptr(),
            log.len(),
            words.as_mut_ptr(),
            words_len,
            report.as_mut_ptr(),
            report_len,
            from,
            out.as_mut_ptr(),
            out_len,
            &mut answer,
        )
    };
    piece(answer)
}

/// Puts the lines that a report of so many bytes shows, from a place on, into a buffer.
pub fn lines(size: usize, report: &[u8], from: usize, out: &mut [u8]) -> Piece {
    let mut answer = [u64::MAX; 5];
    unsafe { probe_lines(size, report.as_ptr(), report.len(), from, out.as_mut_ptr(), out.len(), &mut answer) };
    piece(answer)
}

/// The rows of the core of an order among the badges of a base set, its members, and their least degree; 128 where there is none.
pub fn peel(rows: &Rows, base: u128, order: usize) -> (Rows, u128, usize) {
    let ([low, high], mut out, mut answer) = (halves(base), [u64::MAX; 256], [u64::MAX; 3]);
    unsafe { probe_peel(&to_words(rows), low, high, order, &mut out, &mut answer) };
    (to_rows(&out), whole(answer[0], answer[1]), answer[2] as usize)
}

pub fn core_numbers(rows: &Rows, base: u128) -> [u8; 128] {
    let ([low, high], mut out) = (halves(base), [u8::MAX; 128]);
    unsafe { probe_core_numbers(&to_words(rows), low, high, &mut out) };
    out
}

/// The core of the largest order above one order and up to another that contains the query: its order and its members, and the rows as they came back.
pub fn highest_core(rows: &Rows, base: u128, query: u128, above: u8, most: u8) -> (u8, u128, Rows) {
    let ([low, high], [query_low, query_high]) = (halves(base), halves(query));
    let (mut out, mut answer) = ([u64::MAX; 256], [u64::MAX; 3]);
    unsafe { probe_highest_core(&to_words(rows), low, high, query_low, query_high, above, most, &mut out, &mut answer) };
    (answer[0] as u8, whole(answer[1], answer[2]), to_rows(&out))
}
