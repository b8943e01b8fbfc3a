//! Which refusals of which call came up in a test.

use crate::model::Refusal;
use std::cell::RefCell;
use std::collections::BTreeSet;

thread_local! {
    static SEEN: RefCell<BTreeSet<(&'static str, u8)>> = const { RefCell::new(BTreeSet::new()) };
}

/// The number and the offset of a call's refusal, which is noted.
pub fn refusal(call: &'static str, refused: ward::Refused) -> Refusal {
    let number = refused.refusal.number();
    SEEN.with_borrow_mut(|seen| seen.insert((call, number)));
    (number, refused.offset)
}

/// Just these refusals of a call came up in this test.
pub fn all_seen(call: &str, numbers: &[u8]) {
    let seen: Vec<u8> = SEEN.with_borrow(|seen| seen.iter().filter(|s| s.0 == call).map(|s| s.1).collect());
    assert_eq!(seen, numbers, "{call}");
}
