//! The cores of any rows: not symmetric, and a badge may be in its own row; among the badges of any base set.

use crate::model::{Graph, full};
use crate::numbers::Shape;
use crate::support::probes::{Rows, core_numbers, highest_core, peel};
use crate::support::random::Random;
use crate::support::sets::random_set;

/// The rows of a set's members, and an empty row for every other badge.
fn kept(rows: &Rows, members: u128) -> Rows {
    std::array::from_fn(|u| if members >> u & 1 == 1 { rows[u] } else { 0 })
}

fn compare_peel(rows: &Rows, base: u128, order: usize) -> u128 {
    let graph = Graph::new(rows.to_vec());
    let members = graph.core(base, order);
    assert_eq!(peel(rows, base, order), (kept(rows, members), members, graph.least_degree(members).unwrap_or(128)));
    members
}

/// The core of order 2 of three badges with a tail, which is the three. Where the tail has two badges or more, a single pass drops its end alone.
#[test]
fn three_badges_with_a_tail() {
    for badges in 3..=128 {
        let shape = Shape { badges, clique: 3, ring: false };
        let joined = |u: usize, v: usize| u < badges && v < badges && u != v && shape.joined(u.min(v), u.max(v));
        let rows = std::array::from_fn(|u| (0..128).filter(|&v| joined(u, v)).map(|v| 1 << v).sum());
        assert_eq!(compare_peel(&rows, u128::MAX, 2), 0b111);
    }
}

fn random_rows(random: &mut Random) -> Rows {
    let chance = 1 + random.below(32);
    std::array::from_fn(|_| random_set(random, chance))
}

/// None, few, many or all of the badges, or of those of one word.
fn random_base(random: &mut Random) -> u128 {
    let (chance, words) = (random.below(40), [u128::MAX, u128::MAX, full(64), full(64) << 64][random.below(4)]);
    random_set(random, chance) & words
}

/// For each badge those whose rows it is in.
fn columns(rows: &Rows) -> Rows {
    std::array::from_fn(|u| (0..128).filter(|&v| rows[v] >> u & 1 == 1).map(|v| 1 << v).sum())
}

/// The empty query, some of all badges, or some of the base.
fn random_query(random: &mut Random, base: u128) -> u128 {
    match random.below(4) {
        0 => 0,
        1 => random_set(random, 1),
        _ => random_set(random, 2) & base,
    }
}

/// At each order from 0 to 130, and at the largest number.
#[test]
fn peeling() {
    let mut random = Random(41);
    for order in (0..=130).chain([usize::MAX]) {
        for _ in 0..25 {
            let (rows, base) = (random_rows(&mut random), random_base(&mut random));
            compare_peel(&rows, base, order);
        }
    }
}

#[test]
fn numbers() {
    let mut random = Random(42);
    for _ in 0..500 {
        let (rows, base) = (random_rows(&mut random), random_base(&mut random));
        assert_eq!(core_numbers(&rows, base)[..], Graph::new(rows.to_vec()).core_numbers(base));
    }
}

/// The core of the largest order above one order and up to another that contains the query; the lower order and no badge where there is none.
fn highest(graph: &Graph, base: u128, query: u128, above: u8, most: u8) -> (u8, u128) {
    let orders = (above..most).map(|below| below + 1).map(|order| (order, graph.core(base, order as usize)));
    orders.take_while(|(_, core)| *core != 0 && query & !core == 0).last().unwrap_or((above, 0))
}

fn compare_highest(random: &mut Random, rows: &Rows, graph: &Graph) {
    let base = random_base(random);
    let query = random_query(random, base);
    let bound = 1 + random.below(150);
    let (above, most) = (random.below(bound) as u8, random.below(150) as u8);
    let (order, members) = highest(graph, base, query, above, most);
    assert_eq!(highest_core(rows, base, query, above, most), (order, members, *rows));
}

/// Of rows that are not symmetric: the degree of a badge is the number of rows that it is in.
#[test]
fn highest_cores_by_columns() {
    let mut random = Random(43);
    for _ in 0..2000 {
        let rows = random_rows(&mut random);
        compare_highest(&mut random, &rows, &Graph::new(columns(&rows).to_vec()));
    }
}

/// Of symmetric rows, in which a badge may be its own neighbour: the degree is the number of neighbours.
#[test]
fn highest_cores() {
    let mut random = Random(44);
    for _ in 0..2000 {
        let half = random_rows(&mut random);
        let rows = std::array::from_fn(|u| (0..128).filter(|&v| half[u.min(v)] >> u.max(v) & 1 == 1).map(|v| 1 << v).sum());
        compare_highest(&mut random, &rows, &Graph::new(rows.to_vec()));
    }
}

/// All badges in contact, or all but a few, where the first order tried is the least degree.
#[test]
fn highest_cores_of_dense_rows() {
    let mut random = Random(45);
    for missing in (0..4).flat_map(|missing| [missing; 100]) {
        let mut rows: Rows = std::array::from_fn(|u| !(1 << u));
        for _ in 0..missing {
            let (u, v) = (random.below(128), random.below(128));
            rows[u] &= !(1 << v);
            rows[v] &= !(1 << u);
        }
        compare_highest(&mut random, &rows, &Graph::new(rows.to_vec()));
    }
}
