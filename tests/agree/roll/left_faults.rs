//! Faults of what a roll leaves and answers where it succeeds: each stands in for the library, and must show. It must
//! show also if it is on both sides.

use super::outcome::DAY_SECONDS;
use crate::lists::{NUMBERS, START};
use crate::other::{roll, Caller, Rolled};

/// What is changed of a roll that succeeded: by the buffer and the count that were given, in the buffer that it left,
/// and in its answer.
pub type Change = fn(&[u32], usize, &mut [u32], &mut Rolled);

/// Faults of the events that stay, and of the base day.
pub const EVENTS: [(&str, Change); 9] = [
    ("does not raise the base day", |_, _, _, rolled| rolled.base_day -= 1),
    ("raises the base day by 2", |_, _, _, rolled| rolled.base_day += 1),
    ("keeps the first records, as many as stay", |given, _, list, rolled| {
        list[..NUMBERS * rolled.count].copy_from_slice(&given[..NUMBERS * rolled.count]);
        starts(list, rolled.count).for_each(|start| *start = start.saturating_sub(DAY_SECONDS));
    }),
    ("reverses the order of what stays", |_, _, list, rolled| {
        let records = list[..NUMBERS * rolled.count].to_vec();
        let reversed = records.rchunks(NUMBERS).flatten();
        list.iter_mut().zip(reversed).for_each(|(number, reversed)| *number = *reversed);
    }),
    ("does not lower the count", |_, count, _, rolled| (rolled.value, rolled.count) = (count, count)),
    ("moves five of a record's six numbers", |given, count, list, rolled| {
        let lengths = (NUMBERS - 1..NUMBERS * count).step_by(NUMBERS).take(rolled.count);
        lengths.for_each(|at| list[at] = given[at]);
    }),
    ("takes nothing off where none leaves", |_, count, list, rolled| {
        if rolled.count == count {
            starts(list, count).for_each(|start| *start += DAY_SECONDS);
        }
    }),
    ("takes nothing off behind the 255th record", |_, _, list, rolled| {
        starts(list, rolled.count).skip(255).for_each(|start| *start += DAY_SECONDS);
    }),
    ("takes a second more off on every 64th base day", |_, _, list, rolled| {
        if rolled.base_day % 64 == 0 {
            starts(list, rolled.count).for_each(|start| *start = start.saturating_sub(1));
        }
    }),
];

/// Faults of what is freed, of what stands behind, and of the answer.
pub const BUFFER: [(&str, Change); 12] = [
    ("leaves what freed records held", |given, count, list, rolled| {
        let freed = NUMBERS * rolled.count..NUMBERS * count;
        list[freed.clone()].copy_from_slice(&given[freed]);
    }),
    ("leaves what the first freed record held", |given, count, list, rolled| {
        if rolled.count < count {
            let first = NUMBERS * rolled.count..NUMBERS * (rolled.count + 1);
            list[first.clone()].copy_from_slice(&given[first]);
        }
    }),
    ("leaves what the last freed record held", |given, count, list, rolled| {
        if rolled.count < count {
            let last = NUMBERS * (count - 1)..NUMBERS * count;
            list[last.clone()].copy_from_slice(&given[last]);
        }
    }),
    ("leaves the last number of freed records", |given, count, list, rolled| {
        let lengths = (NUMBERS - 1..NUMBERS * count).step_by(NUMBERS).skip(rolled.count);
        lengths.for_each(|at| list[at] = given[at]);
    }),
    ("clears the ids of freed records alone", |given, count, list, rolled| {
        for at in (NUMBERS * rolled.count..NUMBERS * count).filter(|at| at % NUMBERS > 0) {
            list[at] = given[at];
        }
    }),
    ("clears nothing where none stays", |given, count, list, rolled| {
        if rolled.count == 0 {
            list[..NUMBERS * count].copy_from_slice(&given[..NUMBERS * count]);
        }
    }),
    ("clears a record more than it freed", |_, count, list, _| {
        list[NUMBERS * count..].iter_mut().take(NUMBERS).for_each(|number| *number = 0);
    }),
    ("clears the number behind the freed records", |_, count, list, _| {
        list[NUMBERS * count..].iter_mut().take(1).for_each(|number| *number = 0);
    }),
    ("clears all that is behind the list", |_, count, list, _| list[NUMBERS * count..].fill(0)),
    ("returns the old count as value", |_, count, _, rolled| rolled.value = count),
    ("returns how many left as value", |_, count, _, rolled| rolled.value = count - rolled.count),
    ("returns the old count beside the value", |_, count, _, rolled| rolled.count = count),
];

/// The roll with this change where it succeeds.
pub fn changed(
    change: Change,
    caller: Caller,
    list: &mut [u32],
    count: usize,
    day: &[u8],
    series: &[u8],
    base_day: u32,
) -> Rolled {
    let given = list.to_vec();
    let mut rolled = roll(caller, list, count, day, series, base_day);
    if rolled.number == 0 {
        change(&given, count, list, &mut rolled);
    }
    rolled
}

/// The starts of so many records.
fn starts(list: &mut [u32], count: usize) -> impl Iterator<Item = &mut u32> {
    list.iter_mut().skip(START).step_by(NUMBERS).take(count)
}
