//! Which refusal comes where more than one could: 02, W-208, "The previous file is read first ..", "Build's refusals
//! follow".

use super::case::Case;
use super::comparison::Comparison;
use super::order::{BUILD, IN_BUILD, IN_PREVIOUS, PREVIOUS, PREVIOUS_FIRST};
use crate::build::with_neighbours;
use crate::lists::List;
use crate::other::Previous;
use crate::overlapping;
use crate::pools::Pools;
use crate::random::Random;
use crate::read::{File, Scene};
use crate::unsound::{tagged, unsound};

/// An output that is not short for a few events.
const ENOUGH: usize = 1 << 17;

/// Choices of Build's refusals: all of them, some, and none.
const CHOICES: usize = 1 << BUILD.len();

pub fn run(comparison: &mut Comparison) -> Result<(), String> {
    let random = &mut comparison.groups.begin("precedence");
    for _ in 0..3 {
        for choice in 0..CHOICES {
            asked(comparison, random, &[], &chosen(choice))?;
            for first in PREVIOUS {
                asked(comparison, random, &[first], &chosen(choice))?;
            }
        }
        for (k, first) in PREVIOUS.into_iter().enumerate() {
            for second in &PREVIOUS[k + 1..] {
                let choice = random.below(CHOICES);
                asked(comparison, random, &[first, *second], &chosen(choice))?;
            }
        }
    }
    Ok(())
}

/// The refusals of Build in this choice of them.
fn chosen(choice: usize) -> Vec<u32> {
    (0..BUILD.len()).filter(|k| choice >> k & 1 == 1).map(|k| BUILD[k]).collect()
}

/// A call that asks for these refusals of the previous file, and for these of Build, gets the first of them.
fn asked(comparison: &mut Comparison, random: &mut Random, of_file: &[u32], of_build: &[u32]) -> Result<(), String> {
    let (file, offset) = previous(comparison, random, of_file);
    let bytes = file.bytes();
    let base_day = if of_file.contains(&1) { above(random) } else { file.base_day };
    let previous = Previous { file: &bytes, base_day };

    let index = random.below(512);
    let (pools, list) = list(comparison, random, index, of_build);
    // An output of 17 bytes is too short for every file.
    let room = if of_build.contains(&11) { random.pick(&[0, 17]) } else { ENOUGH };
    let base_day = if of_build.contains(&1) { above(random) } else { random.below(65_473) as u32 };
    let case = Case { previous, pools: &pools, list: &list, base_day, room };
    let (built, _) = comparison.alike(case)?;
    let wanted = match (of_file, of_build) {
        ([1, ..], _) => (1, Some(0)),
        ([25, ..], _) => (25, Some(bytes.len())),
        ([first, ..], _) => (*first, Some(offset)),
        ([], [10, ..]) => (10, Some(index)),
        ([], [11, ..]) => (11, None),
        ([], [first, ..]) => (*first, Some(0)),
        ([], []) => (0, None),
    };
    if built.number != wanted.0 || wanted.1.is_some_and(|value| value != built.value) {
        return Err(format!("Rebuild answered {built:?} where {of_file:?} and {of_build:?} are asked for"));
    }
    count(comparison, of_file, of_build);
    Ok(())
}

fn count(comparison: &mut Comparison, of_file: &[u32], of_build: &[u32]) {
    let tally = &mut comparison.tally;
    match (of_file, of_build) {
        ([first, others @ ..], _) => {
            others.iter().for_each(|second| tally.precedence((IN_PREVIOUS, *first, *second)));
            of_build.iter().for_each(|second| tally.precedence((PREVIOUS_FIRST, *first, *second)));
        }
        ([], [first, others @ ..]) => others.iter().for_each(|second| tally.precedence((IN_BUILD, *first, *second))),
        ([], []) => {}
    }
}

/// A file that asks for these refusals, 1 aside, and where the section stands that is refused.
fn previous(comparison: &Comparison, random: &mut Random, of_file: &[u32]) -> (File, usize) {
    let in_section: Vec<_> = of_file.iter().copied().filter(|number| ![1, 25].contains(number)).collect();
    let victim = random.below(2);
    let limit_in = in_section.contains(&26).then_some(victim);
    let Scene { mut file, victims } =
        Scene::new(comparison.caller, random, limit_in).broken(random, victim, &in_section);
    if of_file.contains(&25) {
        file.sections.truncate(victims[victim] + 1);
    }
    let offset = file.offset(victims[victim]);
    (file, offset)
}

/// A list that is unsound if 12 is among the refusals, with a segment that is unpackable if 10 is.
fn list(comparison: &Comparison, random: &mut Random, index: usize, of_build: &[u32]) -> (Pools, List) {
    let caller = comparison.caller;
    // Of two events that no section holds one stays if the other's part changes.
    let length = if of_build.contains(&10) { caller.sizes().chain_max() + 1 } else { 200 };
    let (pools, list) = with_neighbours(caller, random, index, &[length; 2]);
    if !of_build.contains(&12) {
        return (pools, list);
    }
    let mut lists: Vec<_> = unsound(caller, random, &pools, &list).into_iter().map(|(_, list)| list).collect();
    let place = random.below(list.count);
    lists.extend(overlapping::lists(random, &pools, &list, place).into_iter().map(|(_, list)| list));
    lists.extend(tagged(random, &pools, &list));
    (pools, lists.swap_remove(random.below(lists.len())))
}

/// A base day that is refused.
fn above(random: &mut Random) -> u32 {
    random.pick(&[65_473, 65_536, u32::MAX])
}
