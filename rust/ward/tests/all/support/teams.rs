//! Teams that are in contact in some shape, and random days of them: many circles.

use super::days::meet_some;
use super::random::Random;
use crate::model::Day;
use std::ops::RangeInclusive;

/// How the members of a team are joined: the first with the second, the third with the fourth and so on; each with the next; each with the next and
/// the last with the first; the first with all; all with all.
#[derive(Clone, Copy)]
pub enum Shape {
    Pairs,
    Path,
    Ring,
    Star,
    Clique,
}

use Shape::*;

const SHAPES: [Shape; 5] = [Pairs, Path, Ring, Star, Clique];

impl Shape {
    /// Whether the members in two places of a team of so many, the first place before the second, are joined.
    fn joins(self, a: usize, b: usize, size: usize) -> bool {
        match self {
            Pairs => b == a + 1 && b % 2 == 1,
            Path => b == a + 1,
            Ring => b == a + 1 || a == 0 && b == size - 1,
            Star => a == 0,
            Clique => true,
        }
    }
}

/// Puts a team in contact in some ticks.
pub fn gather(day: &mut Day, shape: Shape, team: &[usize], ticks: RangeInclusive<usize>) {
    for b in 0..team.len() {
        for a in (0..b).filter(|a| shape.joins(*a, b, team.len())) {
            ticks.clone().for_each(|t| day.meet(t, team[a], team[b]));
        }
    }
}

/// The badges, in any order, in teams of from 2 to so many; or each of so many, with those left over in none.
fn teams(random: &mut Random, n: usize, most: usize) -> Vec<Vec<usize>> {
    let mut badges: Vec<usize> = (0..n).collect();
    for k in 0..n {
        badges.swap(k, random.below(k + 1));
    }
    let (mut teams, least) = (Vec::new(), if random.below(2) == 0 { 2 } else { most });
    while badges.len() >= least {
        let size = (least + random.below(most - least + 1)).min(badges.len());
        teams.push(badges.split_off(badges.len() - size));
    }
    teams
}

/// A day whose ticks are cut into runs, each with teams of its own, that stay throughout or, some of them, a tick more or less on either side; all of
/// one shape, or of several. Then contacts of one tick, which may join two teams for that tick.
pub fn random_teams(random: &mut Random, n: usize, ticks: usize) -> Day {
    let (mut day, mut from) = (Day::empty(n, ticks), 0);
    while from < ticks {
        let (to, shape, most) = (from + random.below(ticks - from), random.below(SHAPES.len() + 1), 2 + random.below(4));
        for team in teams(random, n, most) {
            let shape = *SHAPES.get(shape).unwrap_or(&SHAPES[random.below(SHAPES.len())]);
            let (mut first, mut last) = (from, to);
            match random.below(16) {
                0 => first = first.saturating_sub(1),
                1 => last = (last + 1).min(ticks - 1),
                2 => first = (first + 1).min(last),
                3 => last = (last.max(1) - 1).max(first),
                _ => {}
            }
            gather(&mut day, shape, &team, first..=last);
        }
        from = to + 1;
    }
    let count = if n < 2 { 0 } else { random.below(ticks + 1) };
    meet_some(random, &mut day, count);
    day
}
