//! Every span's core decomposition, with lists of neighbours and badges kept in order of degree, and then the filter: a core is maximal if no
//! containing span has an order as large. The circles of a maximal core are found by searching from each member that none has yet.

use super::{encode_report, is_day, members, Group};

/// The neighbours of each badge in every tick of a span.
pub fn neighbours(words: &[u64], n: usize, first: usize, last: usize) -> Vec<Vec<usize>> {
    (0..n)
        .map(|u| {
            let mut row = (first..=last).fold(!0, |row, t| row & words[2 * (t * n + u)]);
            let mut list = Vec::with_capacity(row.count_ones() as usize);
            while row != 0 {
                list.push(row.trailing_zeros() as usize);
                row &= row - 1;
            }
            list
        })
        .collect()
}

/// The core number of each badge, by the algorithm of Batagelj and Zaveršnik: badges are taken by degree, smallest first, and each lowers the degrees
/// of its neighbours that are larger than its own.
pub fn core_numbers(neighbours: &[Vec<usize>]) -> Vec<usize> {
    let n = neighbours.len();
    let mut degree: Vec<usize> = neighbours.iter().map(Vec::len).collect();
    // the badges in order of degree, the place of each there, and where those of each degree start
    let (mut order, mut place, mut start) = (vec![0; n], vec![0; n], vec![0; n + 1]);
    for &d in &degree {
        start[d + 1] += 1;
    }
    for d in 0..n {
        start[d + 1] += start[d];
    }
    let mut free = start.clone();
    for u in 0..n {
        place[u] = free[degree[u]];
        order[place[u]] = u;
        free[degree[u]] += 1;
    }
    for i in 0..n {
        let u = order[i];
        for &v in &neighbours[u] {
            if degree[v] > degree[u] {
                // v moves to the front of its degree, and that front to the next smaller degree
                let front = start[degree[v]];
                let w = order[front];
                order.swap(front, place[v]);
                place.swap(v, w);
                start[degree[v]] += 1;
                degree[v] -= 1;
            }
        }
    }
    degree
}

/// The circles of a set, by smallest member: from each member that is in none yet, those that are reached through members.
pub fn circles(neighbours: &[Vec<usize>], set: u64) -> Vec<u64> {
    let (mut left, mut circles) = (set, Vec::new());
    while left != 0 {
        let before = left;
        let mut waiting = vec![left.trailing_zeros() as usize];
        left &= left - 1;
        while let Some(u) = waiting.pop() {
            for &v in &neighbours[u] {
                if left >> v & 1 == 1 {
                    left &= !(1 << v);
                    waiting.push(v);
                }
            }
        }
        circles.push(before & !left);
    }
    circles
}

pub fn report(words: &[u64], n: usize, ticks: usize, out: &mut [u8]) -> Option<usize> {
    if !is_day(words, n, ticks) {
        return None;
    }
    let mut tops = vec![(0, 0); ticks * ticks];
    for first in 0..ticks {
        for last in first..ticks {
            let numbers = core_numbers(&neighbours(words, n, first, last));
            let top = numbers.iter().copied().max().unwrap_or(0);
            tops[first * ticks + last] = (top, members((0..n).filter(|&u| numbers[u] == top)));
        }
    }
    let order = |first: usize, last: usize| tops[first * ticks + last].0;
    let mut groups: Vec<Group> = Vec::new();
    for first in 0..ticks {
        for last in first..ticks {
            let (top, set) = tops[first * ticks + last];
            // orders fall as spans grow, so the two that are one tick longer decide
            let before = if first == 0 { 0 } else { order(first - 1, last) };
            let after = if last + 1 == ticks { 0 } else { order(first, last + 1) };
            if top > before.max(after) {
                let circles = circles(&neighbours(words, n, first, last), set);
                groups.extend(circles.into_iter().map(|circle| (top as u8, first, last, circle)));
            }
        }
    }
    encode_report(n, ticks, &groups, out)
}
