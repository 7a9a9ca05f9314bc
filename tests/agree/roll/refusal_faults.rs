//! Faults of what a refused roll returns and leaves: each stands in for the library, and must show.

use super::outcome::DAY_SECONDS;
use crate::lists::START;
use crate::other::{roll, Caller, Rolled};

/// What is changed of a roll that is refused with this number: in the buffer, and in its answer.
pub type Change = (u32, fn(&mut [u32], &mut Rolled));

pub const ALL: [(&str, Change); 11] = [
    ("raises the base day where it says 12", (12, |_, rolled| rolled.base_day += 1)),
    ("raises the base day where it says 31", (31, |_, rolled| rolled.base_day = rolled.base_day.wrapping_add(1))),
    ("returns the last base day with 31", (31, |_, rolled| rolled.base_day = 65_472)),
    ("returns base day 0 with 12", (12, |_, rolled| rolled.base_day = 0)),
    ("returns the count as value with 12", (12, |_, rolled| rolled.value = rolled.count)),
    ("returns the base day as value with 31", (31, |_, rolled| rolled.value = rolled.base_day as usize)),
    ("returns count 0 with 12", (12, |_, rolled| rolled.count = 0)),
    ("returns count 0 with 31", (31, |_, rolled| rolled.count = 0)),
    ("clears the list before it says 12", (12, |list, _| list.fill(0))),
    ("takes a day off the first start before it says 12", (12, |list, _| a_day_off(list))),
    ("takes a day off the first start before it says 31", (31, |list, _| a_day_off(list))),
];

/// The roll with this change where it is refused with its number.
pub fn changed(
    (number, change): Change,
    caller: Caller,
    list: &mut [u32],
    count: usize,
    day: &[u8],
    series: &[u8],
    base_day: u32,
) -> Rolled {
    let mut rolled = roll(caller, list, count, day, series, base_day);
    if rolled.number == number {
        change(list, &mut rolled);
    }
    rolled
}

fn a_day_off(list: &mut [u32]) {
    list.iter_mut().skip(START).take(1).for_each(|start| *start = start.wrapping_sub(DAY_SECONDS));
}
