//! What a call of Rebuild is given.

use crate::lists::List;
use crate::other::{Lent, Previous};
use crate::pools::Pools;
use crate::read::Given;

#[derive(Clone, Copy)]
pub struct Case<'a> {
    pub previous: Previous<'a>,
    pub pools: &'a Pools,
    pub list: &'a List,
    pub base_day: u32,
    /// The output's length.
    pub room: usize,
}

impl<'a> Case<'a> {
    /// The events that are given, under their own base day.
    pub fn of(previous: Previous<'a>, given: &'a Given, room: usize) -> Case<'a> {
        Case { previous, pools: &given.pools, list: &given.list, base_day: given.base_day, room }
    }

    /// The list and the pools as a call gets them, with the list's numbers in this buffer.
    pub fn lent(&self, numbers: &'a [u32]) -> Lent<'a> {
        let (day, series) = (self.pools.day.bytes(), self.pools.series.bytes());
        Lent { list: numbers, count: self.list.count, day, series }
    }
}
