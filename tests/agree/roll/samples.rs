//! Rolls in raw numbers: 02, W-205.

use super::case::Case;
use super::comparison::Comparison;
use super::outcome::Outcome;
use crate::lists::List;
use crate::other::{Identity, Rolled};
use crate::pools::Pools;

/// What it is, the buffer, count and base day that are given, the answer, and the buffer that is left.
type Sample = (&'static str, &'static [u32], usize, u32, Rolled, &'static [u32]);

/// A second at the end of the first day, and a minute at the beginning of the next.
const AT_MIDNIGHT: [u32; 12] = [1, 86_399, 1, 0, 0, 0, 2, 86_400, 60, 5, 0, 0];
/// A programme at 23:30:00 for an hour, and one at 01:00:00.
const OVER_MIDNIGHT: [u32; 12] = [1, 84_600, 3_600, 0, 0, 0, 2, 90_000, 3_600, 0, 0, 0];
/// The window's last second.
const LAST_SECOND: [u32; 6] = [65_535, 5_529_599, 359_999, 4, 0, 0];
/// A start past the window.
const UNSOUND: [u32; 6] = [1, 5_529_600, 60, 0, 0, 0];

const SAMPLES: [Sample; 18] = [
    (
        "86,399 leaves, and 86,400 becomes 0",
        &AT_MIDNIGHT,
        2,
        49_273,
        rolled(1, 49_274),
        &[2, 0, 60, 5, 0, 0, 0, 0, 0, 0, 0, 0],
    ),
    ("over midnight", &OVER_MIDNIGHT, 2, 49_273, rolled(1, 49_274), &[2, 3_600, 3_600, 0, 0, 0, 0, 0, 0, 0, 0, 0]),
    ("over at midnight", &[1, 82_800, 3_600, 0, 0, 0], 1, 0, rolled(0, 1), &[0; 6]),
    ("over four midnights", &[1, 0, 359_999, 7, 0, 0], 1, 0, rolled(0, 1), &[0; 6]),
    ("the window's last second", &LAST_SECOND, 1, 0, rolled(1, 1), &[65_535, 5_443_199, 359_999, 4, 0, 0]),
    ("numbers behind the list", &[1, 0, 1, 0, 0, 0, 9, 8, 7], 1, 0, rolled(0, 1), &[0, 0, 0, 0, 0, 0, 9, 8, 7]),
    ("a record behind the list", &OVER_MIDNIGHT, 1, 0, rolled(0, 1), &[0, 0, 0, 0, 0, 0, 2, 90_000, 3_600, 0, 0, 0]),
    ("no events, no buffer", &[], 0, 255, rolled(0, 256), &[]),
    ("no events", &[9, 8, 7, 6, 5, 4, 3], 0, 65_471, rolled(0, 65_472), &[9, 8, 7, 6, 5, 4, 3]),
    ("the last roll", &[3, 172_800, 60, 1, 0, 0], 1, 65_471, rolled(1, 65_472), &[3, 86_400, 60, 1, 0, 0]),
    ("the last base day", &OVER_MIDNIGHT, 2, 65_472, refused(31, 2, 65_472), &OVER_MIDNIGHT),
    ("past the last base day", &OVER_MIDNIGHT, 2, 65_473, refused(31, 2, 65_473), &OVER_MIDNIGHT),
    ("the highest number for a base day", &OVER_MIDNIGHT, 2, u32::MAX, refused(31, 2, u32::MAX), &OVER_MIDNIGHT),
    ("no events on the last base day", &[9], 0, 65_472, refused(31, 0, 65_472), &[9]),
    ("unsound", &UNSOUND, 1, 65_471, refused(12, 1, 65_471), &UNSOUND),
    ("unsound on the last base day", &UNSOUND, 1, 65_472, refused(31, 1, 65_472), &UNSOUND),
    ("unsound past the last base day", &UNSOUND, 1, 65_473, refused(31, 1, 65_473), &UNSOUND),
    ("a count above the buffer", &OVER_MIDNIGHT, 3, 0, refused(12, 3, 0), &OVER_MIDNIGHT),
];

pub fn run(comparison: &mut Comparison) -> Result<(), String> {
    let random = &mut comparison.groups.begin("samples");
    let pools = &Pools::of_chains(random, 0, 0);
    for (name, numbers, count, base_day, rolled, left) in SAMPLES {
        let list = &List { numbers: numbers.to_vec(), count };
        let outcome = comparison.alike(Case { pools, list, base_day })?;
        let wanted = Outcome::new(rolled, left);
        outcome.same_as("it should be", &wanted).map_err(|difference| format!("roll, {name}: {difference}"))?;
    }
    last_second(comparison, pools)?;
    built(comparison, pools)
}

/// The window's last second leaves with the 64th roll, from base day 65,408. There is no 65th.
fn last_second(comparison: &mut Comparison, pools: &Pools) -> Result<(), String> {
    let mut list = List { numbers: LAST_SECOND.to_vec(), count: 1 };
    for n in 1..=64 {
        let outcome = comparison.alike(Case { pools, list: &list, base_day: 65_407 + n })?;
        let wanted = match n {
            64 => Outcome::new(rolled(0, 65_472), &[0; 6]),
            _ => Outcome::new(rolled(1, 65_408 + n), &[65_535, 5_529_599 - 86_400 * n, 359_999, 4, 0, 0]),
        };
        outcome.same_as("it should be", &wanted).map_err(|difference| format!("roll, the {n}th: {difference}"))?;
        list = outcome.left;
    }
    comparison.refuses(31, Case { pools, list: &list, base_day: 65_472 })
}

/// A second at 00:00:00 of the day behind the base day, 49,273: its bytes stand in section 64, and then in section 0.
fn built(comparison: &mut Comparison, pools: &Pools) -> Result<(), String> {
    const EVENT: [u8; 12] = [0x00, 0x01, 0xC0, 0x7A, 0x00, 0x00, 0x00, 0x00, 0x00, 0x01, 0x00, 0x00];
    let list = &List { numbers: vec![1, 86_400, 1, 0, 0, 0], count: 1 };
    let case = Case { pools, list, base_day: 49_273 };
    let before = comparison.written(case, Identity::default());
    let Outcome { rolled, left } = comparison.alike(case)?;
    let next = Case { list: &left, base_day: rolled.base_day, ..case };
    let after = comparison.written(next, Identity::default());
    let is_section_64 = |file: &Vec<u8>| file.len() == 8 * 18 + 30 && file[8 * 18 + 6] == 64 && file[158..170] == EVENT;
    let is_section_0 = |file: &Vec<u8>| file.len() == 30 && file[6] == 0 && file[14..26] == EVENT;
    if before.as_ref().is_ok_and(is_section_64) && after.as_ref().is_ok_and(is_section_0) {
        return Ok(());
    }
    Err(format!("roll, and Build before it {before:02X?} and after it {after:02X?}"))
}

const fn rolled(count: usize, base_day: u32) -> Rolled {
    Rolled { number: 0, value: count, count, base_day }
}

const fn refused(number: u32, count: usize, base_day: u32) -> Rolled {
    Rolled { number, value: 0, count, base_day }
}
