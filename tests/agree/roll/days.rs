//! Rolls in a row (02, W-205): "For every n that stays in range, n rolls from a sound list keep exactly the records
//! whose start was at least 86,400 × n, in order, each shifted by that much."

use super::base_days;
use super::case::Case;
use super::comparison::Comparison;
use super::day_lists::{by_days, with_starts, BEHIND};
use super::outcome::{Outcome, DAY_SECONDS};
use crate::lists::{rising, List, NUMBERS, START, START_END};
use crate::pools::Pools;
use crate::random::Random;
use crate::tally::{each_kind, Kind};

const IN_A_ROW: &str = "rolls in a row";

const MOST: &str = "of the caller's most events";
const NONE_LEAVES: &str = "none leaves with one of them";
const LAST_DAY: &str = "the last one leaves with the 64th";
const NO_EVENTS: &str = "no events any more, and on";
const FROM_0: &str = "64 from base day 0";
const TO_LAST: &str = "64 to base day 65,472";
const UP_TO_31: &str = "up to 31";

/// The days of the window, and the first base day from which on 31 comes before they are over.
const DAYS: u32 = 64;
const LAST_BASE_DAY: u32 = 65_472;

pub fn kinds() -> Vec<Kind> {
    each_kind(IN_A_ROW, [MOST, NONE_LEAVES, LAST_DAY, NO_EVENTS, FROM_0, TO_LAST, UP_TO_31])
}

pub fn run(comparison: &mut Comparison) -> Result<(), String> {
    let random = &mut comparison.groups.begin("days");
    let most = comparison.caller.sizes().events;
    for (day, series) in [(300, 200), (0, 0), (0, 40)] {
        let pools = Pools::of_lengths(random, day, series);
        for (count, times) in [(0, 1), (1, 12), (2, 12), (12, 12), (64, 4), (200, 2), (most, 2)] {
            for _ in 0..times {
                let list = List::sound(random, &pools, count, NUMBERS * count);
                all_days(comparison, random, &pools, list)?;
                let leaving = random.below(count + 1);
                let list = by_days(random, &pools, leaving, count - leaving);
                all_days(comparison, random, &pools, list)?;
            }
        }
        for list in [with_starts(random, &pools, &midnights()), by_days(random, &pools, 0, most)] {
            all_days(comparison, random, &pools, list)?;
        }
        let starts: Vec<_> = rising(random, most, START_END as usize).into_iter().collect();
        let list = with_starts(random, &pools, &starts);
        all_days(comparison, random, &pools, list)?;
        for rolls in [1, 2, 7, DAYS - 1] {
            up_to_31(comparison, random, &pools, rolls)?;
        }
    }
    Ok(())
}

/// The last second of every day, and the first.
fn midnights() -> Vec<u32> {
    (0..DAYS).flat_map(|day| [DAY_SECONDS * day, DAY_SECONDS * (day + 1) - 1]).collect()
}

/// As many rolls as the window has days, after which no list has events, in a buffer with something behind the list.
fn all_days(comparison: &mut Comparison, random: &mut Random, pools: &Pools, list: List) -> Result<(), String> {
    let (behind, least) = random.pick(&BEHIND);
    let numbers = list.numbers.len() + if least == 0 { 0 } else { least + random.below(2 * NUMBERS) };
    let list = &list.in_buffer(random, numbers, behind);
    let any = random.below((LAST_BASE_DAY - DAYS + 1) as usize) as u32;
    let base_day = random.pick(&[any, 0, LAST_BASE_DAY - DAYS]);
    let first = Case { pools, list, base_day };
    let last = in_a_row(comparison, first, DAYS)?;
    if last.count > 0 {
        return Err(comparison.describe(&format!("left {} records after {DAYS} rolls in a row", last.count), first));
    }
    let latest = (0..list.count).map(|place| list.get(place, START)).max();
    let kinds = [
        (MOST, list.count == comparison.caller.sizes().events),
        (LAST_DAY, latest.is_some_and(|start| start >= DAY_SECONDS * (DAYS - 1))),
        (NO_EVENTS, latest.is_some_and(|start| start < DAY_SECONDS * (DAYS - 1))),
        (FROM_0, base_day == 0),
        (TO_LAST, base_day + DAYS == LAST_BASE_DAY),
    ];
    comparison.tally.came_up(IN_A_ROW, &kinds);
    Ok(())
}

/// So many rolls to the last base day, and 31 from there on.
fn up_to_31(comparison: &mut Comparison, random: &mut Random, pools: &Pools, rolls: u32) -> Result<(), String> {
    let list = &by_days(random, pools, 3, 20);
    let last = &in_a_row(comparison, Case { pools, list, base_day: LAST_BASE_DAY - rolls }, rolls)?;
    comparison.refuses(31, Case { pools, list: last, base_day: LAST_BASE_DAY })?;
    comparison.refuses(31, Case { pools, list: last, base_day: base_days::refused(random) })?;
    comparison.tally.kind((IN_A_ROW, UP_TO_31));
    Ok(())
}

/// So many rolls, each from what the one before it left. What each leaves follows from the list that was given first.
fn in_a_row(comparison: &mut Comparison, first: Case, rolls: u32) -> Result<List, String> {
    let mut left = first.list.clone();
    let mut base_day = first.base_day;
    for n in 1..=rolls {
        let outcome = comparison.alike(Case { list: &left, base_day, ..first })?;
        let wanted = Outcome::of_rolls(first, n);
        outcome
            .same_as("by the request", &wanted)
            .map_err(|difference| comparison.describe(&format!("of {n} in a row {difference}"), first))?;
        let none_leaves = left.count > 0 && left.count == outcome.rolled.count;
        comparison.tally.came_up(IN_A_ROW, &[(NONE_LEAVES, none_leaves)]);
        base_day = outcome.rolled.base_day;
        left = outcome.left;
    }
    Ok(left)
}
