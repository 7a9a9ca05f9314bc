//! The last table is another than in the previous file: last_table_id is among the bytes, so every table that stays is
//! raised. One that was not there before has version 0, also if an earlier file had it.

use super::case::Case;
use super::changed_lists::TABLE_SECONDS;
use super::comparison::Comparison;
use super::fates::{Fate, Fates};
use crate::lists::{rising, List, START};
use crate::other::Previous;
use crate::random::Random;
use crate::read::Given;

pub fn run(comparison: &mut Comparison) -> Result<(), String> {
    let random = &mut comparison.groups.begin("last tables");
    for later in 1..16 {
        for earlier in [0, later / 2, later - 1] {
            let given = reaching(comparison, random, earlier, later);
            let end = TABLE_SECONDS * (earlier as u32 + 1);
            let up_to = (0..given.list.count).filter(|place| given.list.get(*place, START) < end).count();
            there_and_back(comparison, given, up_to, [earlier, later])?;
        }
        let given = reaching(comparison, random, later, later);
        there_and_back(comparison, given, 0, [0, later])?;
    }
    Ok(())
}

/// Events in some segments, and in some segment of each of these tables, of which the later one is the last.
fn reaching(comparison: &Comparison, random: &mut Random, earlier: usize, later: usize) -> Given {
    let mut indices = rising(random, 4, 32 * later + 1);
    indices.extend([earlier, later].map(|table| (32 * table + random.below(32)) as u32));
    let segments: Vec<_> = indices.into_iter().map(|index| (index as usize, 1 + random.below(3))).collect();
    Given::short(comparison.caller, random, &segments)
}

/// The list up to this place and the whole one in turn, with these last tables, the shorter one or the longer one
/// first.
fn there_and_back(
    comparison: &mut Comparison,
    mut given: Given,
    up_to: usize,
    [earlier, later]: [usize; 2],
) -> Result<(), String> {
    let (long, short) = (given.list.clone(), given.list.with_count(up_to));
    let longer: Fates = std::array::from_fn(|table| match table {
        _ if table <= earlier => Fate::Raised,
        _ if table <= later => Fate::New,
        _ => Fate::Absent,
    });
    let shorter = longer.map(|fate| if fate == Fate::New { Fate::Gone } else { fate });
    let turns = [(&long, longer), (&short, shorter)];
    for first in [0, 1] {
        given.list = turns[1 - first].0.clone();
        let mut previous = given.built().expect("a few events are packable").bytes();
        for turn in [first, 1 - first, first] {
            let (list, wanted): (&List, Fates) = turns[turn];
            let case = Case::of(Previous { file: &previous, base_day: given.base_day }, &given, 0);
            previous = comparison.rebuilt_with(wanted, Case { list, ..case })?;
        }
    }
    Ok(())
}
