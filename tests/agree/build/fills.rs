//! Segments at the limits of the packing rule: sections filled to the last byte, exactly eight sections and nine.

use super::comparison::Comparison;
use super::request::Request;
use super::segments::{nearby, with_neighbours};
use crate::chain_lengths::taking;
use crate::lineup::Lineup;
use crate::lists::rising;
use crate::other::EVENT_FRONT;
use crate::random::Random;

/// The first segment, the last, and segments at and beside the ends of tables.
const SEGMENTS: [usize; 7] = [0, 1, 31, 32, 200, 479, 511];

pub fn run(comparison: &mut Comparison) -> Result<(), String> {
    let random = &mut comparison.groups.begin("fills");
    let sizes = comparison.caller.sizes();
    let longest = sizes.chain_max();
    // Events without descriptors.
    let in_section = sizes.room() / EVENT_FRONT;
    for index in SEGMENTS {
        for length in [0, 2, longest - 1, longest] {
            packed(comparison, random, index, &[length], &[1])?;
        }
        let beyond = [longest + 1, longest + 2, sizes.section, 4_096, 4_096 + 20, 65_535, 65_536, 65_536 + 20];
        for length in beyond {
            unpackable(comparison, random, index, &[length])?;
            unpackable(comparison, random, index, &[0, length, 0])?;
        }
        for events in [2, 2, 2, 3, 5, 30, in_section * 3 / 5, in_section] {
            filled(comparison, random, index, events)?;
        }
        for events in [1, 2, 7] {
            eight(comparison, random, index, events)?;
        }
        packed(comparison, random, index, &vec![0; in_section + 1], &[in_section, 1])?;
        let mut most_events = vec![in_section; sizes.events / in_section];
        most_events.push(sizes.events % in_section);
        packed(comparison, random, index, &vec![0; sizes.events], &most_events)?;
    }
    for _ in 0..60 {
        several_unpackable(comparison, random)?;
    }
    Ok(())
}

/// So many events, at least two, that fill one section to the last byte; and one byte more, which puts the last event
/// into a second section.
fn filled(comparison: &mut Comparison, random: &mut Random, index: usize, events: usize) -> Result<(), String> {
    let mut lengths = taking(random, comparison.caller.sizes().room(), events);
    packed(comparison, random, index, &lengths, &[events])?;
    longer_by_one(random, &mut lengths);
    packed(comparison, random, index, &lengths, &[events - 1, 1])
}

/// Eight sections of so many events each, filled to the last byte; one event less, one byte more, and one event more.
fn eight(comparison: &mut Comparison, random: &mut Random, index: usize, events: usize) -> Result<(), String> {
    let room = comparison.caller.sizes().room();
    let mut lengths: Vec<_> = (0..8).flat_map(|_| taking(random, room, events)).collect();
    packed(comparison, random, index, &lengths, &[events; 8])?;
    let mut less = vec![events; 7];
    less.extend((events > 1).then_some(events - 1));
    packed(comparison, random, index, &lengths[..8 * events - 1], &less)?;
    unpackable(comparison, random, index, &[&lengths[..], &[0]].concat())?;
    longer_by_one(random, &mut lengths);
    unpackable(comparison, random, index, &lengths)
}

/// One byte more in some chain, of those that are not empty.
fn longer_by_one(random: &mut Random, lengths: &mut [usize]) {
    let places: Vec<_> = (0..lengths.len()).filter(|place| lengths[*place] > 0).collect();
    lengths[random.pick(&places)] += 1;
}

/// A segment with chains of these lengths, and how many events each of its sections has.
fn packed(
    comparison: &mut Comparison,
    random: &mut Random,
    index: usize,
    lengths: &[usize],
    wanted: &[usize],
) -> Result<(), String> {
    let (pools, list) = with_neighbours(comparison.caller, random, index, lengths);
    let held = comparison.held(random, &pools, &list, index)?;
    if held.as_deref() == Some(wanted) {
        return Ok(());
    }
    Err(format!("the sections of segment {index} with chains of {lengths:?} hold {held:?}, and not {wanted:?} events"))
}

fn unpackable(comparison: &mut Comparison, random: &mut Random, index: usize, lengths: &[usize]) -> Result<(), String> {
    let (pools, list) = with_neighbours(comparison.caller, random, index, lengths);
    let room = random.pick(&[0, 17, 18, 50_000]);
    comparison.answers((10, index), &pools, &list, Request::legal(random, room))
}

/// Several unpackable segments among others: the lowest is named.
fn several_unpackable(comparison: &mut Comparison, random: &mut Random) -> Result<(), String> {
    let longest = comparison.caller.sizes().chain_max();
    let mut lineup = Lineup::new();
    let mut lowest = None;
    for index in rising(random, 12, 512) {
        let index = index as usize;
        match random.below(4) {
            0 => lineup.segment(random, index, &[longest + 1]),
            1 => lineup.segment(random, index, &[longest; 9]),
            _ => {
                nearby(comparison.caller, random, &mut lineup, index);
                continue;
            }
        }
        lowest = lowest.or(Some(index));
    }
    let (pools, list) = lineup.lend(random);
    match lowest {
        Some(index) => comparison.answers((10, index), &pools, &list, Request::legal(random, 0)),
        None => comparison.cuts(random, &pools, &list).map(drop),
    }
}
