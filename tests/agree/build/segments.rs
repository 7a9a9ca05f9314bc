//! Makers of segments: one with chains of chosen lengths, and others with a few events.

use crate::lineup::Lineup;
use crate::lists::List;
use crate::other::Caller;
use crate::pools::Pools;
use crate::random::Random;

/// A few events: each may have a section of its own.
const NEARBY_MAX: usize = 6;

/// A list with this segment, and at times with events before and behind it.
pub fn with_neighbours(caller: Caller, random: &mut Random, index: usize, lengths: &[usize]) -> (Pools, List) {
    let mut lineup = Lineup::new();
    let has_room = lengths.len() + 2 * NEARBY_MAX <= caller.sizes().events;
    if has_room && index > 0 && random.one_in(2) {
        let before = random.below(index);
        nearby(caller, random, &mut lineup, before);
    }
    lineup.segment(random, index, lengths);
    if has_room && index < 511 && random.one_in(2) {
        let behind = index + 1 + random.below(511 - index);
        nearby(caller, random, &mut lineup, behind);
    }
    lineup.lend(random)
}

/// A few events in this segment, which the caller's sections hold.
pub fn nearby(caller: Caller, random: &mut Random, lineup: &mut Lineup, index: usize) {
    let events = 1 + random.below(NEARBY_MAX);
    let lengths: Vec<_> = (0..events).map(|_| chain_length(caller, random)).collect();
    lineup.segment(random, index, &lengths);
}

/// A chain's length that fits a section: none, some bytes, or up to the most.
fn chain_length(caller: Caller, random: &mut Random) -> usize {
    let most = random.pick(&[1, 60, 600, caller.sizes().chain_max() - 1]);
    match random.below(most) {
        0 => 0,
        more => 1 + more,
    }
}
