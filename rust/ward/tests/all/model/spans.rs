//! The cores of every span of a day, among the badges under review: groups and plans.

use super::{Day, Graph, Record};
use std::cmp::Reverse;

/// The cores of every span of a day, among the badges under review.
pub struct Cores {
    day: Day,
    ticks: usize,
    review: u128,
    /// For each first and last tick the cores of order 1, 2 and so on, as far as there are any.
    of_span: Vec<Vec<u128>>,
}

impl Cores {
    pub fn of(day: &Day, review: u128) -> Cores {
        let mut of_span = vec![Vec::new(); day.ticks * day.ticks];
        for first in 0..day.ticks {
            for last in first..day.ticks {
                of_span[first * day.ticks + last] = Graph::throughout(day, first, last).cores(review);
            }
        }
        Cores { day: day.clone(), ticks: day.ticks, review, of_span }
    }

    fn on(&self, first: usize, last: usize) -> &[u128] {
        &self.of_span[first * self.ticks + last]
    }

    /// The largest order whose core contains the query, with that core; 0 and the reviewed set if there is none.
    pub fn highest(&self, query: u128, first: usize, last: usize) -> (usize, u128) {
        let mut orders = self.on(first, last).iter().enumerate().filter(|core| query & !core.1 == 0);
        orders.next_back().map_or((0, self.review), |(place, core)| (place + 1, *core))
    }

    /// The maximal cores, by first tick and then last tick: "Domination is still by order and span of the whole core."
    fn maximal(&self) -> Vec<Record> {
        let mut all: Vec<Record> = Vec::new();
        for first in 0..self.ticks {
            for last in first..self.ticks {
                // a core of a smaller order on the same span is not maximal
                all.extend(self.on(first, last).iter().enumerate().next_back().map(|(place, core)| (place + 1, first, last, *core)));
            }
        }
        let larger = |a: &Record, b: &Record| a != b && a.0 >= b.0 && a.1 <= b.1 && a.2 >= b.2;
        all.iter().copied().filter(|b| !all.iter().any(|a| larger(a, b))).collect()
    }

    /// The circles of the maximal cores, each with its core's order and span: "ordered by first tick, last tick, smallest member".
    pub fn groups(&self) -> Vec<Record> {
        let circles = |(order, first, last, core)| {
            let circles = Graph::throughout(&self.day, first, last).circles(core);
            circles.into_iter().map(move |circle| (order, first, last, circle))
        };
        self.maximal().into_iter().flat_map(circles).collect()
    }

    /// The parts that end with these ticks, around a query: score and members of each.
    pub fn parts(&self, query: u128, ends: &[usize]) -> Vec<Record> {
        let mut first = 0;
        let mut parts = Vec::new();
        for &last in ends {
            assert!(first <= last && last < self.ticks, "a part of at least one tick");
            let (score, members) = self.highest(query, first, last);
            parts.push((score, first, last, members));
            first = last + 1;
        }
        assert_eq!(first, self.ticks, "all ticks are cut");
        parts
    }

    /// The last ticks of a plan's h parts around a query: of the ways to cut all ticks into h runs, those of the greatest sum of scores, and of these
    /// the list that comes first, compared number by number.
    pub fn ends(&self, query: u128, h: usize) -> Vec<usize> {
        let scores: Vec<Vec<usize>> = (0..self.ticks).map(|last| (0..=last).map(|first| self.highest(query, first, last).0).collect()).collect();
        // best[t]: the greatest sum of the ticks before t, in so many runs as were added, and the first list that has it; none where they cannot be cut so.
        // Lists of as many numbers stay in their order when each gets the same number as its last.
        let mut best: Vec<Option<(usize, Vec<usize>)>> = vec![None; self.ticks + 1];
        best[0] = Some((0, Vec::new()));
        for _ in 0..h {
            let mut next = vec![None; self.ticks + 1];
            for (end, found) in next.iter_mut().enumerate().skip(1) {
                let cut = |start: usize| best[start].as_ref().map(|(sum, ends)| (sum + scores[end - 1][start], Reverse(ends)));
                *found = (0..end).filter_map(cut).max().map(|(sum, Reverse(ends))| (sum, [&ends[..], &[end - 1]].concat()));
            }
            best = next;
        }
        best.pop().flatten().expect("there are no more parts than ticks").1
    }

    /// The lists of last ticks of all cuttings into h runs that have the greatest sum, by trying every cutting: bit t of a number says whether a run
    /// ends with tick t. For days of few ticks.
    pub fn all_best(&self, query: u128, h: usize) -> Vec<Vec<usize>> {
        let cuttings = (0..1u32 << (self.ticks - 1)).filter(|cuts| cuts.count_ones() as usize == h - 1);
        let ends = |cuts: u32| -> Vec<usize> { (0..self.ticks).filter(|&t| t + 1 == self.ticks || cuts >> t & 1 == 1).collect() };
        let sum = |ends: &Vec<usize>| -> usize { self.parts(query, ends).iter().map(|part| part.0).sum() };
        let all: Vec<_> = cuttings.map(ends).map(|ends| (sum(&ends), ends)).collect();
        let greatest = all.iter().map(|(sum, _)| *sum).max();
        all.into_iter().filter(|(sum, _)| Some(*sum) == greatest).map(|(_, ends)| ends).collect()
    }
}
