//! What the file of a list is to be: its length, and where its sections are cut.

use super::comparison::{lent, Comparison};
use super::request::Request;
use super::sections::{sections, Cut, Section};
use crate::lists::{List, LENGTH};
use crate::other::{self, EVENT_FRONT};
use crate::pools::Pools;
use crate::random::Random;

/// A section without events.
const SECTION_MIN: usize = 18;

impl Comparison<'_> {
    /// The bytes of the file: by its sections, which are planned, and its events. Of an unsound list, or one with an
    /// unpackable segment, it is a length like any other.
    pub fn need(&self, pools: &Pools, list: &List) -> usize {
        let plan = other::plan(self.caller, &lent(pools, list, &list.numbers));
        if plan[0] == 254 {
            return SECTION_MIN;
        }
        let sections: usize = plan.iter().map(|count| usize::from(*count)).sum();
        let chains: usize = (0..list.count).map(|place| list.get(place, LENGTH) as usize).sum();
        SECTION_MIN * sections + EVENT_FRONT * list.count + chains
    }

    /// The cuts of the file that is built, in an output that is just long enough; nothing if Build says 10.
    pub fn cuts(&mut self, random: &mut Random, pools: &Pools, list: &List) -> Result<Option<Vec<Cut>>, String> {
        let request = Request::legal(random, self.need(pools, list));
        let (built, output) = self.alike(pools, list, request)?;
        let fault = match built.number {
            0 if built.value == output.len() => match sections(&output) {
                Ok(sections) => return Ok(Some(sections.iter().map(Section::cut).collect())),
                Err(fault) => fault,
            },
            10 => return Ok(None),
            _ => format!("answered {built:?}; the output is just long enough"),
        };
        Err(self.describe(&format!("Build {fault}"), pools, list, request))
    }

    /// How many events each section of this segment has in the file that is built; nothing if Build says 10.
    pub fn held(
        &mut self,
        random: &mut Random,
        pools: &Pools,
        list: &List,
        index: usize,
    ) -> Result<Option<Vec<usize>>, String> {
        let cuts = self.cuts(random, pools, list)?;
        let is_here = |table_id: u8, number: u8| 32 * usize::from(table_id - 0x50) + usize::from(number / 8) == index;
        let here = |cuts: Vec<Cut>| cuts.iter().filter(|cut| is_here(cut.0, cut.1)).map(|cut| cut.2).collect();
        Ok(cuts.map(here))
    }
}
