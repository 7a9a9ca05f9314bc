//! Which refusal comes where more than one could: 01, "Checks run in this order".

use super::comparison::Comparison;
use super::order::{BUILD_CROWDED, BUILD_OVERLAPPING, BUILD_TAGGED, ORDER};
use super::request::Request;
use super::segments::with_neighbours;
use crate::lineup::Lineup;
use crate::other::Caller;
use crate::overlapping;
use crate::random::Random;
use crate::unsound::{tagged, unsound};

pub fn run(comparison: &mut Comparison) -> Result<(), String> {
    let random = &mut comparison.groups.begin("precedence");
    for _ in 0..10 {
        for choice in 1..1 << ORDER.len() {
            let broken: Vec<_> = (0..ORDER.len()).filter(|k| choice >> k & 1 == 1).map(|k| ORDER[k]).collect();
            precedence(comparison, random, &broken)?;
            if broken.contains(&12) {
                crowded(comparison, random, &broken)?;
            }
        }
    }
    Ok(())
}

/// A call that asks for these refusals gets the first of them.
fn precedence(comparison: &mut Comparison, random: &mut Random, broken: &[u32]) -> Result<(), String> {
    let index = random.below(512);
    let (pools, list) = with_neighbours(comparison.caller, random, index, &lengths(comparison.caller, broken));
    let need = comparison.need(&pools, &list);
    let request = asking(random, broken, need);
    let lists = if broken.contains(&12) {
        let kinds = unsound(comparison.caller, random, &pools, &list).into_iter().map(|(_, list)| list);
        let place = random.below(list.count);
        let overlapping = overlapping::lists(random, &pools, &list, place).into_iter().map(|(_, list)| list);
        kinds.chain(tagged(random, &pools, &list)).chain(overlapping).collect()
    } else {
        vec![list]
    };
    let first = broken[0];
    let value = match first {
        10 => index,
        11 => need,
        _ => 0,
    };
    for list in &lists {
        comparison.answers((first, value), &pools, list, request)?;
    }
    for second in &broken[1..] {
        comparison.tally.precedence(("Build", first, *second));
        if first == 12 || *second == 12 {
            comparison.tally.precedence((BUILD_TAGGED, first, *second));
            comparison.tally.precedence((BUILD_OVERLAPPING, first, *second));
        }
    }
    Ok(())
}

/// The same, where 12 is among them for an event that is one too many.
fn crowded(comparison: &mut Comparison, random: &mut Random, broken: &[u32]) -> Result<(), String> {
    let lengths = lengths(comparison.caller, broken);
    let others = vec![0; comparison.caller.sizes().events + 1 - lengths.len()];
    let mut lineup = Lineup::new();
    lineup.segment(random, 7, &lengths);
    lineup.segment(random, 40, &others);
    let (pools, list) = lineup.lend(random);
    let request = asking(random, broken, comparison.caller.sizes().section * 20);
    comparison.answers((broken[0], 0), &pools, &list, request)?;
    let pairs = broken[1..].iter().map(|second| (BUILD_CROWDED, broken[0], *second));
    pairs.filter(|(_, first, second)| *first == 12 || *second == 12).for_each(|pair| comparison.tally.precedence(pair));
    Ok(())
}

/// Chains of a segment that is unpackable if 10 is among these refusals. Of two events that no section holds one stays
/// if the other's part changes.
fn lengths(caller: Caller, broken: &[u32]) -> [usize; 2] {
    if broken.contains(&10) {
        [caller.sizes().chain_max() + 1; 2]
    } else {
        [200, 300]
    }
}

/// A request that asks for those of 1, 2 and 11 that are among these refusals; without 11 its output has this length.
fn asking(random: &mut Random, broken: &[u32], enough: usize) -> Request {
    // An output of 17 bytes is too short for every file.
    let room = if broken.contains(&11) { random.pick(&[0, 17]) } else { enough };
    let mut request = Request::legal(random, room);
    if broken.contains(&1) {
        request.base_day = random.pick(&[65_473, 65_536, u32::MAX]);
    }
    if broken.contains(&2) {
        // Of any table, whether the file has it or not.
        request.identity.versions[random.below(16)] = random.pick(&[32, 33, 64, 255]);
    }
    request
}
