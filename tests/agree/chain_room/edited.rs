//! What the subject's Edit makes of a list with one more event, and what its Build says of a list.

use super::case::Case;
use super::comparison::Comparison;
use crate::lists::{new_id, List, ID};
use crate::other::{Built, Identity};
use crate::pools::{Pool, Pools};
use crate::random::Random;
use crate::scripts::{bytes, Command};
use std::collections::HashSet;

const BASE_DAY: u32 = 49_273;

impl Comparison<'_> {
    /// The pools and the list with an event at the start, which takes a second and whose chain has so many bytes; or
    /// the number of Edit's refusal.
    pub fn put(&self, random: &mut Random, case: Case, length: usize) -> Result<(Pools, List), u32> {
        let Pools { day, series } = case.pools;
        let offset = day.bytes().len() as u32;
        let pools = Pools { day: day.followed_by(&Pool::of_length(random, length)), series: series.clone() };
        let mut ids: HashSet<_> = (0..case.list.count).map(|place| case.list.get(place, ID)).collect();
        let id = new_id(random, &mut ids, 65_536);
        let script = bytes(&[Command::Put([id, case.start, 1, 0, offset, length as u32])]);
        let mut list = case.list.clone();
        let (day, series) = (pools.day.bytes(), pools.series.bytes());
        let answer = (self.subject.edit)(self.caller, &mut list.numbers, list.count, day, series, &script);
        list.count = answer.count;
        if answer.number == 0 {
            Ok((pools, list))
        } else {
            Err(answer.number)
        }
    }

    /// The lowest segment that Build finds unpackable, if one is. The output is too short for every file.
    pub fn lowest_unpackable(&self, case: Case) -> Result<Option<usize>, String> {
        match (self.subject.build)(self.caller, &case.lent(), BASE_DAY, Identity::default(), &mut []) {
            Built { number: 11, .. } => Ok(None),
            Built { number: 10, value } => Ok(Some(value)),
            built => Err(self.describe(&format!("and Build, which answered {built:?}, disagree"), case)),
        }
    }
}
