//! Sets of badges: random ones, and the words of several.

use super::random::Random;
use crate::model::full;

/// Two words for each set, lower badges first.
pub fn words_of(sets: &[u128]) -> Vec<u64> {
    sets.iter().flat_map(|set| [*set as u64, (set >> 64) as u64]).collect()
}

/// Any set of 128 badges.
pub fn any_set(random: &mut Random) -> u128 {
    u128::from(random.next()) << 64 | u128::from(random.next())
}

/// A set in which each badge is by a chance of so many in 32.
pub fn random_set(random: &mut Random, chance: usize) -> u128 {
    (0..128).filter(|_| random.below(32) < chance).map(|v| 1 << v).sum()
}

/// Some of n badges, one at least, few, many or all: what may be reviewed.
pub fn reviewable(random: &mut Random, n: usize) -> u128 {
    let chance = random.below(40);
    (random_set(random, chance) | 1 << random.below(n)) & full(n)
}

/// Mostly what may be reviewed of n badges; sometimes none, and sometimes any of 128.
pub fn random_review(random: &mut Random, n: usize) -> u128 {
    let review = reviewable(random, n.clamp(1, 128));
    match random.below(32) {
        0 => 0,
        1 => any_set(random),
        2 => review | 1 << random.below(128),
        _ => review,
    }
}

/// Of the reviewed badges mostly, often few of them, and sometimes none; sometimes of n badges or of 128.
pub fn random_query(random: &mut Random, n: usize, review: u128) -> u128 {
    let badges = match random.below(16) {
        0 => u128::MAX,
        1..=3 => full(n.min(128)),
        _ => review,
    };
    let query = (0..random.below(5)).fold(badges, |query, _| query & any_set(random));
    if random.below(8) == 0 { 0 } else { query }
}
