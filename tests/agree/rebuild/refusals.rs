//! Lists that Build refuses, behind a previous file that is accepted: 12 and 10.

use super::case::Case;
use super::comparison::Comparison;
use crate::build::with_neighbours;
use crate::lineup::Lineup;
use crate::lists::List;
use crate::other::Previous;
use crate::overlapping;
use crate::pools::Pools;
use crate::random::Random;
use crate::read::{rival, Given};
use crate::unsound::{tagged, unsound};

pub fn run(comparison: &mut Comparison) -> Result<(), String> {
    let random = &mut comparison.groups.begin("refusals");
    for count in [1, 2, 12].repeat(3) {
        unsound_lists(comparison, random, count)?;
    }
    for index in [0, 1, 31, 32, 510].repeat(2) {
        unpackable(comparison, random, index)?;
    }
    Ok(())
}

/// Lists that are unsound, of every kind.
fn unsound_lists(comparison: &mut Comparison, random: &mut Random, count: usize) -> Result<(), String> {
    let given = Given::some(comparison.caller, random);
    let file = rival(random, &given).bytes();
    // Of more than one descriptor each.
    let pools = Pools::of_lengths(random, 900, 700);
    let numbers = 6 * count + random.below(14);
    let list = List::sound(random, &pools, count, numbers);
    let kinds = unsound(comparison.caller, random, &pools, &list).into_iter().map(|(_, list)| list);
    let place = random.below(count);
    let overlapping = overlapping::lists(random, &pools, &list, place).into_iter().map(|(_, list)| list);
    let lists: Vec<_> = kinds.chain(tagged(random, &pools, &list)).chain(overlapping).collect();
    for list in &lists {
        let room = random.pick(&[0, 18, 5_000]);
        let previous = Previous { file: &file, base_day: given.base_day };
        let case = Case { previous, pools: &pools, list, base_day: given.base_day, room };
        comparison.answers((12, 0), case)?;
    }
    Ok(())
}

/// A segment that needs a ninth section, or has an event that no section holds; and a later one beside it.
fn unpackable(comparison: &mut Comparison, random: &mut Random, index: usize) -> Result<(), String> {
    let given = Given::some(comparison.caller, random);
    let file = rival(random, &given).bytes();
    let longest = comparison.caller.sizes().chain_max();
    for lengths in [&[longest + 1][..], &[longest; 9]] {
        let (pools, list) = with_neighbours(comparison.caller, random, index, lengths);
        let room = random.pick(&[0, 18, 50_000]);
        let previous = Previous { file: &file, base_day: given.base_day };
        comparison.answers((10, index), Case { previous, pools: &pools, list: &list, base_day: 0, room })?;

        let mut lineup = Lineup::new();
        [index, 511].into_iter().for_each(|index| lineup.segment(random, index, lengths));
        let (pools, list) = lineup.lend(random);
        comparison.answers((10, index), Case { previous, pools: &pools, list: &list, base_day: 0, room })?;
    }
    Ok(())
}
