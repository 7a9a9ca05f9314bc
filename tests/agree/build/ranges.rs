//! Lists of many sizes up to the caller's most events, over every table: gaps of segments and tables without events,
//! events late or only at the end.

use super::comparison::Comparison;
use super::segments::nearby;
use crate::lineup::Lineup;
use crate::lists::{rising, List};
use crate::pools::Pools;
use crate::random::Random;

const COUNTS: [usize; 23] =
    [0, 1, 2, 3, 4, 7, 8, 9, 31, 33, 83, 85, 100, 255, 256, 339, 341, 400, 700, 1_024, 1_500, 2_047, 2_048];

const SEGMENTS: usize = 512;

pub fn run(comparison: &mut Comparison) -> Result<(), String> {
    let random = &mut comparison.groups.begin("ranges");
    let sizes = comparison.caller.sizes();
    for (day, series) in [(0, 0), (0, 50), (9_000, 0), (4_000, 60_000)] {
        let pools = Pools::of_lengths(random, day, series);
        for count in COUNTS.into_iter().filter(|count| *count <= sizes.events) {
            for _ in 0..2 {
                let numbers = 6 * count + random.below(8);
                let list = List::sound(random, &pools, count, numbers);
                comparison.cuts(random, &pools, &list)?;
            }
        }
    }
    for index in 0..SEGMENTS {
        segments(comparison, random, &[index])?;
    }
    for _ in 0..250 {
        gaps(comparison, random)?;
    }
    let longest = sizes.chain_max();
    for (least, most) in [(longest / 20, longest / 4), (longest - 66, longest)] {
        most_events(comparison, random, least, most)?;
    }
    Ok(())
}

/// A few events in each of these segments.
fn segments(comparison: &mut Comparison, random: &mut Random, indices: &[usize]) -> Result<(), String> {
    let mut lineup = Lineup::new();
    indices.iter().for_each(|index| nearby(comparison.caller, random, &mut lineup, *index));
    let (pools, list) = lineup.lend(random);
    comparison.cuts(random, &pools, &list).map(drop)
}

/// Some segments of some tables, the tables' first and last ones more often than others.
fn gaps(comparison: &mut Comparison, random: &mut Random) -> Result<(), String> {
    let mut indices = Vec::new();
    let tables = 1 + random.below(6);
    for table in rising(random, tables, 16) {
        let count = 1 + random.below(4);
        let mut in_table = rising(random, count, 32);
        if random.one_in(4) {
            in_table.insert(random.pick(&[0, 31]));
        }
        indices.extend(in_table.iter().map(|segment| (32 * table + segment) as usize));
    }
    segments(comparison, random, &indices)
}

/// The caller's most events, as many in each segment, or in every other, with chains of these lengths.
fn most_events(comparison: &mut Comparison, random: &mut Random, least: usize, most: usize) -> Result<(), String> {
    let events = comparison.caller.sizes().events;
    let each = events.div_ceil(SEGMENTS);
    let mut lineup = Lineup::new();
    for index in (0..SEGMENTS).step_by(each * SEGMENTS / events) {
        let lengths: Vec<_> = (0..each).map(|_| least + random.below(most - least + 1)).collect();
        lineup.segment(random, index, &lengths);
    }
    let (pools, list) = lineup.lend(random);
    comparison.cuts(random, &pools, &list).map(drop)
}
