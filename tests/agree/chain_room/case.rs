//! What chain_room is given.

use crate::lists::{List, START};
use crate::other::Lent;
use crate::pools::Pools;

pub use crate::lineup::SEGMENT_SECONDS;

#[derive(Clone, Copy)]
pub struct Case<'a> {
    pub pools: &'a Pools,
    pub list: &'a List,
    pub start: u32,
}

impl<'a> Case<'a> {
    /// The list and the pools as the calls get them, with the list's numbers in this buffer.
    pub fn lent_in(&self, numbers: &'a [u32]) -> Lent<'a> {
        let (day, series) = (self.pools.day.bytes(), self.pools.series.bytes());
        Lent { list: numbers, count: self.list.count, day, series }
    }

    pub fn lent(&self) -> Lent<'a> {
        self.lent_in(&self.list.numbers)
    }

    /// The index of the start's segment; past the last one, of one that there is not.
    pub fn index(&self) -> usize {
        (self.start / SEGMENT_SECONDS) as usize
    }

    /// Whether a record of the list has this start.
    pub fn is_taken(&self) -> bool {
        (0..self.list.count).any(|place| self.list.get(place, START) == self.start)
    }
}
