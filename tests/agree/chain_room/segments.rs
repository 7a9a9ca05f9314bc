//! Makers of lists with a segment of chosen events: sections filled to so many bytes, and other segments beside it.

use super::case::SEGMENT_SECONDS;
use crate::build::nearby;
use crate::lineup::Lineup;
use crate::lists::{rising, List};
use crate::other::Caller;
use crate::pools::Pools;
use crate::random::Random;

/// The first segment, the last, and segments at and beside the ends of tables.
pub const INDICES: [usize; 6] = [0, 1, 31, 32, 200, 511];

/// So many starts in a segment, counted from its first second: one second at least is free before, between and behind
/// them.
pub fn apart(random: &mut Random, events: usize) -> Vec<u32> {
    let end = (SEGMENT_SECONDS / 2 - 1) as usize;
    let first = if random.one_in(2) { 0 } else { end - (2 * events).min(end) };
    rising(random, events, end - first).into_iter().map(|second| 2 * (first as u32 + second) + 1).collect()
}

/// A list with events of these starts, counted from the segment's first second, and chains of these lengths. In the
/// segments beside it, and in others, may stand anything that is sound: it plays no part.
pub fn with_others(
    caller: Caller,
    random: &mut Random,
    index: usize,
    starts: &[u32],
    lengths: &[usize],
) -> (Pools, List) {
    let mut lineup = Lineup::new();
    if index > 1 && random.one_in(4) {
        let before = random.below(index - 1);
        nearby(caller, random, &mut lineup, before);
    }
    if index > 0 {
        beside(caller, random, &mut lineup, index - 1);
    }
    for (start, length) in starts.iter().zip(lengths) {
        lineup.event(random, SEGMENT_SECONDS * index as u32 + start, *length);
    }
    if index < 511 {
        beside(caller, random, &mut lineup, index + 1);
    }
    if index < 510 && random.one_in(4) {
        let behind = index + 2 + random.below(510 - index);
        nearby(caller, random, &mut lineup, behind);
    }
    lineup.lend(random)
}

/// Nothing, a few events, eight full sections, a ninth, or an event that no section holds.
fn beside(caller: Caller, random: &mut Random, lineup: &mut Lineup, index: usize) {
    let longest = caller.sizes().chain_max();
    match random.below(12) {
        0 | 1 => nearby(caller, random, lineup, index),
        2 => lineup.segment(random, index, &[longest; 8]),
        3 => lineup.segment(random, index, &[longest; 9]),
        4 => lineup.segment(random, index, &[0, longest + 1, 0]),
        _ => {}
    }
}
