//! Overlap (02, W-204) in a list that is built and planned: 12, and 254 throughout the plan. Events that touch, and a
//! last one that ends past the window, are written.

use super::comparison::Comparison;
use crate::at_limits::touching;
use crate::lineup::{Lineup, SEGMENT_SECONDS};
use crate::lists::{List, DURATION, DURATION_MAX, NUMBERS, START, START_END};
use crate::overlapping::{self, lengthened, KINDS, PAST_WINDOW, TOUCHING};
use crate::pools::Pools;
use crate::random::Random;
use crate::spaced::spaced;
use crate::tally::{each_kind, Kind};

const IN_SEGMENT: &str = "inside a segment";
const SEGMENT_EDGE: &str = "across a segment's edge";
const TABLE_EDGE: &str = "across a table's edge";

const TABLE_SECONDS: u32 = 32 * SEGMENT_SECONDS;

/// Lists of so many events, and how many of them.
const COUNTS: [(usize, usize); 5] = [(1, 12), (2, 12), (3, 8), (12, 4), (100, 2)];

/// Segments of so many events each, by segment index.
const SEGMENTS: [&[(usize, usize)]; 5] =
    [&[(0, 3), (1, 2)], &[(30, 2), (31, 3), (32, 2)], &[(3, 2), (9, 1), (33, 2)], &[(31, 1), (64, 1)], &[(511, 3)]];

pub fn kinds(call: &'static str) -> Vec<Kind> {
    let others = [TOUCHING, PAST_WINDOW, IN_SEGMENT, SEGMENT_EDGE, TABLE_EDGE];
    each_kind(call, KINDS.map(|(kind, _)| kind).into_iter().chain(others))
}

pub fn run(comparison: &mut Comparison) -> Result<(), String> {
    let random = &mut comparison.groups.begin("overlaps");
    let pools = Pools::of_lengths(random, 300, 200);
    for (count, times) in COUNTS {
        for _ in 0..times {
            let numbers = NUMBERS * count + random.below(8);
            for list in [spaced(random, &pools, count, numbers), List::sound(random, &pools, count, numbers)] {
                in_list(comparison, random, &pools, &list)?;
            }
        }
    }
    for segments in SEGMENTS.repeat(3) {
        let mut lineup = Lineup::new();
        segments.iter().for_each(|(index, events)| lineup.segment(random, *index, &vec![0; *events]));
        let (pools, list) = lineup.lend(random);
        pairs(comparison, random, &pools, &list)?;
    }
    Ok(())
}

/// An event more that overlaps, of every kind; the list that touches throughout; and a last event past the window.
fn in_list(comparison: &mut Comparison, random: &mut Random, pools: &Pools, list: &List) -> Result<(), String> {
    let place = random.below(list.count);
    for (kind, overlapping) in overlapping::lists(random, pools, list, place) {
        comparison.unsound(random, pools, &overlapping)?;
        comparison.kind(kind);
    }
    comparison.cuts(random, pools, &touching(list))?;
    for duration in [2, DURATION_MAX] {
        let past = list.with(list.count - 1, START, &[START_END - 1, duration]);
        comparison.cuts(random, pools, &past)?;
        comparison.kind(PAST_WINDOW);
    }
    Ok(())
}

/// Each two neighbours, of which the first touches the second, or goes on for a second more, or for many.
fn pairs(comparison: &mut Comparison, random: &mut Random, pools: &Pools, list: &List) -> Result<(), String> {
    for place in 0..list.count - 1 {
        if let Some(touching) = lengthened(list, place, 0) {
            comparison.cuts(random, pools, &touching)?;
            comparison.kind(TOUCHING);
        }
        for seconds in [1, 2 + random.below(1_000) as u32] {
            if let Some(overlapping) = lengthened(list, place, seconds) {
                comparison.unsound(random, pools, &overlapping)?;
                comparison.kind(edge(list.get(place, START), list.get(place + 1, START)));
            }
        }
    }
    comparison.unsound(random, pools, &list.with(list.count - 1, DURATION, &[DURATION_MAX + 1]))
}

/// What is between two starts.
fn edge(start: u32, next: u32) -> &'static str {
    if start / TABLE_SECONDS != next / TABLE_SECONDS {
        TABLE_EDGE
    } else if start / SEGMENT_SECONDS != next / SEGMENT_SECONDS {
        SEGMENT_EDGE
    } else {
        IN_SEGMENT
    }
}
