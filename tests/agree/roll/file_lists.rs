//! Makers of lists that are built before and after a roll.

use crate::build::with_neighbours;
use crate::lineup::Lineup;
use crate::lists::{List, NUMBERS};
use crate::other::{Caller, EVENT_FRONT};
use crate::pools::Pools;
use crate::random::Random;
use crate::read::Given;

/// The first and the last second of days, segments and tables.
const EDGES: [u32; 16] = [
    0, 75_599, 75_600, 86_399, 86_400, 97_199, 97_200, 172_799, 172_800, 345_599, 345_600, 431_999, 432_000, 5_443_199,
    5_443_200, 5_529_599,
];

/// The first day's segments, those behind it, and those at the ends of tables and of the window.
const INDICES: [usize; 12] = [0, 7, 8, 9, 31, 32, 39, 40, 263, 503, 504, 511];

/// Visits lists of the caller under base days that have one after them, each with an identity.
pub fn each_given(
    caller: Caller,
    random: &mut Random,
    mut visit: impl FnMut(&mut Random, &Given) -> Result<(), String>,
) -> Result<(), String> {
    let mut visit_one = |random: &mut Random, mut given: Given| {
        let any = random.below(65_472) as u32;
        given.base_day = random.pick(&[any, 0, 255, 49_273, 65_471]);
        visit(random, &given)
    };
    for _ in 0..8 {
        let mut lineup = Lineup::new();
        EDGES.iter().for_each(|start| lineup.event(random, *start, 5));
        let given = Given::new(caller, random, lineup);
        visit_one(random, given)?;
    }
    for segments in [&[][..], &[(0, 2), (7, 3)], &[(8, 2), (15, 1)], &[(40, 1)]] {
        let given = Given::short(caller, random, segments);
        visit_one(random, given)?;
    }
    for _ in 0..100 {
        let given = Given::some(caller, random);
        visit_one(random, given)?;
    }
    for index in INDICES {
        for lengths in in_segment(caller) {
            let (pools, list) = with_neighbours(caller, random, index, &lengths);
            let given = Given::of(caller, random, pools, list);
            visit_one(random, given)?;
        }
    }
    for lineup in [unpackable_twice, full] {
        let lineup = lineup(caller, random);
        let given = Given::new(caller, random, lineup);
        visit_one(random, given)?;
    }
    for count in [3, 100, caller.sizes().events].repeat(3) {
        let pools = Pools::of_lengths(random, 300, 200);
        let list = List::sound(random, &pools, count, NUMBERS * count);
        let given = Given::of(caller, random, pools, list);
        visit_one(random, given)?;
    }
    Ok(())
}

/// Chains of a segment's events: eight sections full, one more section, a ninth, and an event that no section holds.
fn in_segment(caller: Caller) -> [Vec<usize>; 4] {
    let sizes = caller.sizes();
    let longest = sizes.chain_max();
    [vec![longest; 8], vec![0; sizes.room() / EVENT_FRONT + 1], vec![longest; 9], vec![0, longest + 1]]
}

/// Unpackable segments on the first day and later.
fn unpackable_twice(caller: Caller, random: &mut Random) -> Lineup {
    let mut lineup = Lineup::new();
    [3, 100].into_iter().for_each(|index| lineup.segment(random, index, &[caller.sizes().chain_max() + 1]));
    lineup
}

/// The caller's most events, four in each segment up to the last.
fn full(caller: Caller, random: &mut Random) -> Lineup {
    let mut lineup = Lineup::new();
    for index in 512 - caller.sizes().events / 4..512 {
        let lengths = [(); 4].map(|()| random.pick(&[0, 2, 60, 200]));
        lineup.segment(random, index, &lengths);
    }
    lineup
}
