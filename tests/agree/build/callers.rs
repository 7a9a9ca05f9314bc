//! The callers' sizes (02, W-206): lists at their exact numbers, and lists that are made for the other caller.

use super::comparison::Comparison;
use super::request::Request;
use super::segments::nearby;
use crate::lineup::Lineup;
use crate::lists::rising;
use crate::other::Caller;
use crate::random::Random;
use std::collections::BTreeSet;

pub fn run(comparison: &mut Comparison) -> Result<(), String> {
    let random = &mut comparison.groups.begin("callers");
    for (chain_length, answer) in chains(comparison.caller) {
        one_event(comparison, random, chain_length, answer)?;
    }
    for (events, is_sound) in counts(comparison.caller) {
        without_chains(comparison, random, events, is_sound)?;
    }
    of_the_other(comparison, random)
}

/// Chain lengths, and number and value that Build answers to one event with such a chain in the first segment: at the
/// limits of both callers.
fn chains(caller: Caller) -> [(usize, (u32, usize)); 6] {
    let [beyond_cable, longest] = match caller {
        Caller::Broadcast => [(0, 1_025), (0, 4_096)],
        Caller::Cable => [(10, 0), (10, 0)],
    };
    [(0, (0, 30)), (993, (0, 1_023)), (994, (0, 1_024)), (995, beyond_cable), (4_066, longest), (4_067, (10, 0))]
}

/// Numbers of events, and whether a list of as many is sound.
fn counts(caller: Caller) -> [(usize, bool); 6] {
    let is_broadcast = caller == Caller::Broadcast;
    [(255, true), (256, true), (257, is_broadcast), (2_047, is_broadcast), (2_048, is_broadcast), (2_049, false)]
}

fn one_event(
    comparison: &mut Comparison,
    random: &mut Random,
    chain_length: usize,
    answer: (u32, usize),
) -> Result<(), String> {
    let mut lineup = Lineup::new();
    lineup.segment(random, 0, &[chain_length]);
    let (pools, list) = lineup.lend(random);
    comparison.answers(answer, &pools, &list, Request::legal(random, 5_000))
}

/// Events without descriptors, in one segment and over all.
fn without_chains(
    comparison: &mut Comparison,
    random: &mut Random,
    events: usize,
    is_sound: bool,
) -> Result<(), String> {
    for segments in [1, 512] {
        let mut lineup = Lineup::new();
        for index in 0..segments {
            let here = events * (index + 1) / segments - events * index / segments;
            lineup.segment(random, index, &vec![0; here]);
        }
        let (pools, list) = lineup.lend(random);
        if !is_sound {
            comparison.unsound(random, &pools, &list)?;
        } else if comparison.cuts(random, &pools, &list)?.is_none() {
            return Err(format!("{events} events without descriptors are unpackable for {}", comparison.caller));
        }
    }
    Ok(())
}

/// Lists within the other caller's sizes. For broadcast they are within its own.
fn of_the_other(comparison: &mut Comparison, random: &mut Random) -> Result<(), String> {
    let other = comparison.caller.other();
    let mut seen = BTreeSet::new();
    for segments in [1, 3, 10, 40, other.sizes().events / 10].repeat(8) {
        let mut lineup = Lineup::new();
        for index in rising(random, segments, 512) {
            nearby(other, random, &mut lineup, index as usize);
        }
        let (pools, list) = lineup.lend(random);
        if list.count > comparison.caller.sizes().events {
            comparison.unsound(random, &pools, &list)?;
            seen.insert(12);
        } else {
            let is_packable = comparison.cuts(random, &pools, &list)?.is_some();
            seen.insert(if is_packable { 0 } else { 10 });
        }
    }
    let wanted = match comparison.caller {
        Caller::Broadcast => [0].into(),
        Caller::Cable => [0, 10, 12].into(),
    };
    (seen == wanted).then_some(()).ok_or_else(|| format!("{other}'s lists are answered {seen:?}, and not {wanted:?}"))
}
