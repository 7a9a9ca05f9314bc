//! Starts of every kind: at the ends of segments, of tables and of the window, and past it, in lists without events,
//! beside events at the very ends of segments, and in programmes that run on.

use super::case::{Case, SEGMENT_SECONDS};
use super::comparison::Comparison;
use crate::lineup::Lineup;
use crate::lists::{List, DURATION, START, START_END};
use crate::pools::Pools;
use crate::random::Random;
use crate::times::Times;

/// The first and the last second of segments, days, tables and the window.
const EDGES: [u32; 15] = [
    0, 1, 10_799, 10_800, 10_801, 21_599, 21_600, 86_399, 86_400, 345_599, 345_600, 5_518_799, 5_518_800, 5_529_598,
    5_529_599,
];

/// Starts past the last segment, some with the bits of one in it.
const PAST: [u32; 10] = [
    5_529_600,
    5_529_601,
    5_540_399,
    5_540_400,
    8_388_608,
    65_536 * 10_800,
    1 << 31,
    (1 << 31) + 10_800,
    u32::MAX - 1,
    u32::MAX,
];

pub fn run(comparison: &mut Comparison) -> Result<(), String> {
    let random = &mut comparison.groups.begin("starts");
    let longest = comparison.caller.sizes().chain_max();
    let pools = &Pools::of_lengths(random, 60, 40);
    for numbers in [0, 1, 6, 30] {
        let list = &List { numbers: (0..numbers).map(|_| random.number()).collect(), count: 0 };
        for start in EDGES {
            comparison.gives(Some(longest), Case { pools, list, start })?;
        }
        past(comparison, random, pools, list)?;
    }
    for _ in 0..6 {
        at_edges(comparison, random)?;
        running(comparison, random)?;
    }
    Ok(())
}

/// None past the last segment, whatever the list.
fn past(comparison: &mut Comparison, random: &mut Random, pools: &Pools, list: &List) -> Result<(), String> {
    let any = START_END + random.below((u32::MAX - START_END) as usize) as u32;
    PAST.into_iter().chain([any]).try_for_each(|start| comparison.gives(None, Case { pools, list, start }))
}

/// Full segments whose events begin with the first second and with the last, each beside one with room.
fn at_edges(comparison: &mut Comparison, random: &mut Random) -> Result<(), String> {
    let longest = comparison.caller.sizes().chain_max();
    let mut lineup = Lineup::new();
    for index in [0, 2, 31, 33, 510] {
        let first = SEGMENT_SECONDS * index;
        lineup.event(random, first, longest);
        (1..7).for_each(|place| lineup.event(random, first + 1_000 * place, longest));
        lineup.event(random, first + SEGMENT_SECONDS - 1, longest);
    }
    lineup.event(random, START_END - 1, longest);
    let (pools, list) = &lineup.lend(random);
    for index in [0, 2, 31, 33, 510] {
        let [first, end] = [index, index + 1].map(|index| SEGMENT_SECONDS * index);
        for start in [first, end - 1] {
            comparison.gives(None, Case { pools, list, start })?;
        }
        for start in [first + 1, end - 2] {
            comparison.gives(None, Case { pools, list, start })?;
        }
        for start in [first.checked_sub(1), Some(end)].into_iter().flatten() {
            comparison.gives(Some(longest), Case { pools, list, start })?;
        }
    }
    comparison.gives(None, Case { pools, list, start: START_END - 1 })?;
    comparison.gives(Some(longest), Case { pools, list, start: START_END - 2 })?;
    past(comparison, random, pools, list)
}

/// Starts in a programme that runs on, in its segment and in later ones: overlap plays no part.
fn running(comparison: &mut Comparison, random: &mut Random) -> Result<(), String> {
    let longest = comparison.caller.sizes().chain_max();
    let index = random.below(400) as u32;
    let start = SEGMENT_SECONDS * index + random.below(SEGMENT_SECONDS as usize) as u32;
    let mut lineup = Lineup::new();
    lineup.event(random, start, 2);
    lineup.event(random, start + 300_000, longest);
    let (pools, list) = &lineup.lend(random);
    let whole = Times { start, duration: 300_000 };
    let list = &list.with(0, DURATION, &[whole.duration]);
    for start in [start + 1, start + SEGMENT_SECONDS, start + 2 * SEGMENT_SECONDS, whole.end() - 1, whole.end() + 1] {
        comparison.gives(Some(longest), Case { pools, list, start })?;
    }
    (0..2).try_for_each(|place| comparison.gives(None, Case { pools, list, start: list.get(place, START) }))
}
