//! Sound lists with room before, between and behind their events.

use crate::lists::{List, NUMBERS, START};
use crate::pools::Pools;
use crate::random::Random;

/// Seconds before the first event, and behind the last of a list of the most events, are at least as many.
pub const MARGIN: u32 = 1_500_000;
/// Seconds between two events are at least as many.
pub const FREE_MIN: u32 = 4;
const GAP_MIN: u32 = 2 * FREE_MIN;
const GAP_MAX: u32 = 1_000;
/// An event takes at most as long.
pub const DURATION_MAX: u32 = 60;

/// A sound list of `count` events in a buffer of so many numbers. Two starts next to each other are 8 to 1,000 apart,
/// and half of that time or more is free.
pub fn spaced(random: &mut Random, pools: &Pools, count: usize, numbers: usize) -> List {
    let mut list = List::sound(random, pools, count, numbers);
    let gap_max = random.pick(&[GAP_MIN, 2 * GAP_MIN, GAP_MAX]);
    let mut start = MARGIN;
    for place in 0..count {
        let gap = GAP_MIN + random.below((gap_max - GAP_MIN + 1) as usize) as u32;
        let duration = 1 + random.below((gap / 2).min(DURATION_MAX) as usize) as u32;
        list.set(place, START, &[start, duration]);
        start += gap;
    }
    list
}

/// Visits spaced lists and as many sound ones of any times, in buffers with room for an event more: lists of so many
/// events, and how many of them.
pub fn each_list(
    random: &mut Random,
    pools: &Pools,
    counts: &[(usize, usize)],
    mut visit: impl FnMut(&mut Random, &List) -> Result<(), String>,
) -> Result<(), String> {
    for &(count, times) in counts {
        for _ in 0..times {
            let numbers = NUMBERS * (count + 1) + random.below(8);
            for list in [spaced(random, pools, count, numbers), List::sound(random, pools, count, numbers)] {
                visit(random, &list)?;
            }
        }
    }
    Ok(())
}
