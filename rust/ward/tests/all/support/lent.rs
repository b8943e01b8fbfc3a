//! Memory that is lent to a call, with guards on both sides, and what it held before.

use super::random::Random;
use std::cell::RefCell;
use std::fmt::Debug;
use std::hint::black_box;

const GUARD: usize = 16;

thread_local! {
    /// What lent memory holds before a call.
    static FILLING: RefCell<Random> = const { RefCell::new(Random(1)) };
}

pub trait Element: Copy + PartialEq + Debug {
    /// So many random ones.
    fn draw(random: &mut Random, len: usize) -> Vec<Self>;
}

impl Element for u8 {
    fn draw(random: &mut Random, len: usize) -> Vec<u8> {
        let mut bytes = vec![0; len];
        bytes.chunks_mut(8).for_each(|piece| piece.copy_from_slice(&random.next().to_le_bytes()[..piece.len()]));
        bytes
    }
}

impl Element for u64 {
    fn draw(random: &mut Random, len: usize) -> Vec<u64> {
        (0..len).map(|_| random.next()).collect()
    }
}

impl Element for usize {
    fn draw(random: &mut Random, len: usize) -> Vec<usize> {
        (0..len).map(|_| random.next() as usize).collect()
    }
}

fn drawn<T: Element>(len: usize) -> Vec<T> {
    FILLING.with_borrow_mut(|random| T::draw(random, len))
}

pub struct Lent<T> {
    cells: Vec<T>,
    before: Vec<T>,
}

impl<T: Element> Lent<T> {
    /// So many elements, random like the guards.
    pub fn room(len: usize) -> Lent<T> {
        Lent::holding(&drawn(len))
    }

    /// These elements.
    pub fn holding(elements: &[T]) -> Lent<T> {
        let cells = [&drawn(GUARD), elements, &drawn(GUARD)].concat();
        Lent { before: cells.clone(), cells }
    }

    pub fn slice(&mut self) -> &mut [T] {
        let end = self.cells.len() - GUARD;
        &mut self.cells[GUARD..end]
    }

    /// The memory holds these elements at its start, and all else is as it was, the guards too.
    pub fn holds(&self, front: &[T]) {
        let mut expected = self.before.clone();
        expected[GUARD..GUARD + front.len()].copy_from_slice(front);
        // black_box: what is lent to be read is to be looked at again, though nothing in Rust may have changed it
        let cells = black_box(&self.cells);
        if *cells != expected {
            let wrong = cells.iter().zip(&expected).position(|(cell, value)| cell != value).expect("a difference");
            panic!("the first place that is wrong: {}, of {}", wrong as isize - GUARD as isize, cells.len() - 2 * GUARD);
        }
    }

    pub fn is_unchanged(&self) {
        self.holds(&[]);
    }
}
