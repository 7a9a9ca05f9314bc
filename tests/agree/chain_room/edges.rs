//! Segments of eight sections, all full but one, which has so many bytes left: an event there can take those and no
//! more, since there are no others, however the events are packed.

use super::case::{Case, SEGMENT_SECONDS};
use super::comparison::Comparison;
use super::segments::{apart, with_others, INDICES};
use crate::chain_lengths::taking;
use crate::other::EVENT_FRONT;
use crate::random::Random;
use crate::tally::{each_kind, Kind};

const SECTIONS: usize = 8;

/// How often each number of bytes is left.
const ROUNDS: usize = 4;

/// Bytes that are left, and what fits.
const LEFT: &str = "chain_room with bytes left";
const KINDS: [(&str, usize, Option<usize>); 10] = [
    ("0, so none", 0, None),
    ("1, so none", 1, None),
    ("2, so none", 2, None),
    ("11, so none", 11, None),
    ("12, so 0", 12, Some(0)),
    ("13, so 0 and not 1", 13, Some(0)),
    ("14, so 2", 14, Some(2)),
    ("15, so 3", 15, Some(3)),
    ("16, so 4", 16, Some(4)),
    ("269, so 257", 269, Some(257)),
];

/// What fits above those is 12 less, and the section where it fits is the first, the last or one between.
const HALF: &str = "half a section";
const ALL: &str = "all but the least event";
const SECTION: &str = "a whole section";
const IN_FIRST: &str = "in the first section";
const IN_LAST: &str = "in the last section";
const BETWEEN: &str = "in a section between";

pub fn kinds() -> Vec<Kind> {
    let left = KINDS.map(|(kind, ..)| kind);
    each_kind(LEFT, left.into_iter().chain([HALF, ALL, SECTION, IN_FIRST, IN_LAST, BETWEEN]))
}

pub fn run(comparison: &mut Comparison) -> Result<(), String> {
    let random = &mut comparison.groups.begin("edges");
    let room = comparison.caller.sizes().room();
    let longest = comparison.caller.sizes().chain_max();
    let more =
        [(HALF, room / 2, room / 2 - EVENT_FRONT), (ALL, longest, longest - EVENT_FRONT), (SECTION, room, longest)];
    let more = more.map(|(kind, left, length)| (kind, left, Some(length)));
    for _ in 0..ROUNDS {
        for (kind, left, length) in KINDS.into_iter().chain(more) {
            let index = random.pick(&INDICES);
            let section = random.pick(&[0, 0, 1, 2, 3, 4, 5, 6, 7, 7]);
            one(comparison, random, (index, section), left, length)?;
            comparison.tally.kind((LEFT, kind));
        }
    }
    Ok(())
}

/// A segment of which one section has so many bytes left, and what then fits at every place in that section.
fn one(
    comparison: &mut Comparison,
    random: &mut Random,
    (index, section): (usize, usize),
    left: usize,
    length: Option<usize>,
) -> Result<(), String> {
    let room = comparison.caller.sizes().room();
    let most_events = random.pick(&[1, 2, 3, 3, 6]);
    let held: Vec<_> =
        (0..SECTIONS).map(|place| held(random, most_events, room - if place == section { left } else { 0 })).collect();
    let before: usize = held[..section].iter().map(Vec::len).sum();
    let lengths = held.concat();
    let starts = apart(random, lengths.len());
    let (pools, list) = &with_others(comparison.caller, random, index, &starts, &lengths);
    // Behind the last event, or just before one.
    let free = |place: usize| starts.get(place).map_or_else(|| starts[place - 1] + 1, |start| start - 1);
    for place in before..=before + held[section].len() {
        let start = SEGMENT_SECONDS * index as u32 + free(place);
        comparison.gives(length, Case { pools, list, start })?;
    }
    let kinds =
        [(IN_FIRST, section == 0), (IN_LAST, section == SECTIONS - 1), (BETWEEN, (1..SECTIONS - 1).contains(&section))];
    comparison.tally.came_up(LEFT, &kinds);
    Ok(())
}

/// Chains of events that take so many bytes: of as many as there is room for and as are asked for at most.
fn held(random: &mut Random, most_events: usize, bytes: usize) -> Vec<usize> {
    let fits = |events: &usize| bytes >= EVENT_FRONT * events && bytes - EVENT_FRONT * events != 1;
    match (1..=most_events).rev().find(fits) {
        Some(events) => taking(random, bytes, events),
        None => Vec::new(),
    }
}
