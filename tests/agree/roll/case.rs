//! What a roll is given.

use crate::lists::List;
use crate::other::Lent;
use crate::pools::Pools;

#[derive(Clone, Copy)]
pub struct Case<'a> {
    pub pools: &'a Pools,
    pub list: &'a List,
    pub base_day: u32,
}

impl<'a> Case<'a> {
    /// The list and the pools as Build and Rebuild get them.
    pub fn lent(&self) -> Lent<'a> {
        let (day, series) = (self.pools.day.bytes(), self.pools.series.bytes());
        Lent { list: &self.list.numbers, count: self.list.count, day, series }
    }
}
