//! Single rolls of sound lists: of every size, with events on the first day, on later ones and on both, at the limits
//! of every value, and with anything behind the list.

use super::base_days::legal;
use super::case::Case;
use super::comparison::Comparison;
use super::day_lists::{by_days, BEHIND};
use super::outcome::DAY_SECONDS;
use crate::at_limits::at_limits;
use crate::lineup::Lineup;
use crate::lists::{rising, List, NUMBERS, START_END};
use crate::pools::Pools;
use crate::random::Random;
use crate::spaced::spaced;

/// Bytes of the day pool and of the series pool.
const POOLS: [(usize, usize); 4] = [(300, 200), (0, 0), (0, 40), (40, 0)];

/// Lists of so many events, and how many of them.
const COUNTS: [(usize, usize); 10] =
    [(0, 2), (1, 12), (2, 12), (3, 12), (7, 2), (8, 2), (12, 8), (31, 2), (100, 2), (255, 1)];

/// Numbers of a buffer that holds every list.
const NUMBERS_MAX: usize = 12_288;

pub fn run(comparison: &mut Comparison) -> Result<(), String> {
    let random = &mut comparison.groups.begin("sound lists");
    let most = comparison.caller.sizes().events;
    for (day, series) in POOLS {
        let pools = Pools::of_lengths(random, day, series);
        for (count, times) in COUNTS.into_iter().chain([(most - 1, 1), (most, 1)]) {
            for _ in 0..times {
                parted(comparison, random, &pools, count)?;
                drawn(comparison, random, &pools, count)?;
            }
        }
    }
    long_chains(comparison, random)
}

/// None of so many events leaves, one, some, all but one and all; each list with everything behind it.
fn parted(comparison: &mut Comparison, random: &mut Random, pools: &Pools, count: usize) -> Result<(), String> {
    let mut leaving = vec![0, 1, random.below(count + 1), count.saturating_sub(1), count];
    leaving.retain(|leaving| *leaving <= count);
    leaving.dedup();
    for leaving in leaving {
        let list = by_days(random, pools, leaving, count - leaving);
        for (behind, least) in BEHIND {
            let more = if least == 0 { 0 } else { least + random.below(2 * NUMBERS) };
            let numbers = if least > 0 && random.one_in(8) { NUMBERS_MAX + more } else { NUMBERS * count + more };
            let list = &list.clone().in_buffer(random, numbers, behind);
            comparison.rolls(Case { pools, list, base_day: legal(random) })?;
        }
    }
    Ok(())
}

/// Lists as the other calls get them, and with one value each at its limit.
fn drawn(comparison: &mut Comparison, random: &mut Random, pools: &Pools, count: usize) -> Result<(), String> {
    let numbers = NUMBERS * count + random.below(14);
    let mut lists = vec![List::sound(random, pools, count, numbers), spaced(random, pools, count, numbers)];
    if count > 0 {
        let leaving = random.below(count + 1);
        let list = by_days(random, pools, leaving, count - leaving);
        lists.extend(at_limits(random, pools, &list));
    }
    lists.iter().try_for_each(|list| comparison.rolls(Case { pools, list, base_day: legal(random) }))
}

/// Chains up to the longest that a section holds, and longer: a roll does not ask what fits a section.
fn long_chains(comparison: &mut Comparison, random: &mut Random) -> Result<(), String> {
    let longest = comparison.caller.sizes().chain_max();
    for _ in 0..20 {
        let mut lineup = Lineup::new();
        let end = random.pick(&[2 * DAY_SECONDS, START_END]);
        for start in rising(random, 8, end as usize) {
            let length = random.pick(&[0, 2, 300, longest, longest + 1, 20_000]);
            lineup.event(random, start, length);
        }
        let (pools, list) = &lineup.lend(random);
        comparison.rolls(Case { pools, list, base_day: legal(random) })?;
    }
    Ok(())
}
