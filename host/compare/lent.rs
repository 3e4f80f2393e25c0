// Lent memory with guard elements on both sides, and what it held at entry.
use crate::random::Random;
use std::fmt::Debug;

const GUARD: usize = 32;

pub trait Element: Copy + Debug + Default + PartialEq {
    fn of(bits: u64) -> Self;
}

macro_rules! elements {
    ($($t:ty),*) => { $(impl Element for $t { fn of(bits: u64) -> $t { bits as $t } })* };
}

elements!(u8, i16, u16, u32, usize);

pub struct Lent<T> {
    cells: Vec<T>,
    entry: Vec<T>,
}

impl<T: Element> Lent<T> {
    // A list of so many elements that hold anything: random numbers, in a long list again and again.
    pub fn of_length(random: &mut Random, length: usize) -> Lent<T> {
        let block: [T; 509] = [(); 509].map(|()| T::of(random.bits() >> 17));
        let mut cells = block.repeat((length + 2 * GUARD).div_ceil(509));
        cells.truncate(length + 2 * GUARD);
        Lent { entry: cells.clone(), cells }
    }

    // A list with these values.
    pub fn holding(random: &mut Random, values: &[T]) -> Lent<T> {
        let mut lent = Lent::of_length(random, values.len());
        lent.list().copy_from_slice(values);
        lent.entry.copy_from_slice(&lent.cells);
        lent
    }

    fn end(&self) -> usize {
        self.cells.len() - GUARD
    }

    // What is handed to the call.
    pub fn list(&mut self) -> &mut [T] {
        let end = self.end();
        &mut self.cells[GUARD..end]
    }

    pub fn now(&self) -> &[T] {
        &self.cells[GUARD..self.end()]
    }

    // The used part holds these values; all else, the guards included, is as it was at entry.
    pub fn written(&self, used: &[T]) -> bool {
        let rest = GUARD + used.len();
        rest <= self.end()
            && self.cells[..GUARD] == self.entry[..GUARD]
            && self.cells[GUARD..rest] == *used
            && self.cells[rest..] == self.entry[rest..]
    }

    pub fn unchanged(&self) -> bool {
        self.cells == self.entry
    }

    // The named part holds zeros; all else is as it was at entry.
    pub fn cleared(&self, named: usize) -> bool {
        let rest = GUARD + named;
        rest <= self.end()
            && self.cells[..GUARD] == self.entry[..GUARD]
            && self.cells[GUARD..rest].iter().all(|cell| *cell == T::default())
            && self.cells[rest..] == self.entry[rest..]
    }
}

// Says what is wrong unless the condition holds.
pub fn ensure(holds: bool, what: &str) -> Result<(), String> {
    if holds {
        Ok(())
    } else {
        Err(what.to_string())
    }
}
