//! Faults of the base days that a roll refuses, of the order of its refusals, and of the caller that it serves: each
//! stands in for the library, and must show.

use super::comparison::RollCall;
use crate::other::{roll, Caller, Rolled};

pub const ALL: [(&str, RollCall); 8] = [
    ("serves the other caller", |caller, list, count, day, series, base_day| {
        roll(caller.other(), list, count, day, series, base_day)
    }),
    ("looks at the list before the base day", |caller, list, count, day, series, base_day| {
        let is_unsound = roll(caller, &mut list.to_vec(), count, day, series, 0).number == 12;
        refused_if(is_unsound, 12, caller, list, count, day, series, base_day)
    }),
    ("says 1 where no base day is left", |caller, list, count, day, series, base_day| {
        refused_if(base_day >= 65_472, 1, caller, list, count, day, series, base_day)
    }),
    ("says 1 above 65,472", |caller, list, count, day, series, base_day| {
        refused_if(base_day > 65_472, 1, caller, list, count, day, series, base_day)
    }),
    ("says 31 at 65,472 alone", |caller, list, count, day, series, base_day| {
        let is_last = base_day == 65_472;
        let rolled = roll(caller, list, count, day, series, if is_last { base_day } else { 0 });
        Rolled { base_day: base_day.saturating_add(u32::from(rolled.number == 0)), ..rolled }
    }),
    ("says 31 up to 65,535", |caller, list, count, day, series, base_day| {
        let is_last = (65_472..65_536).contains(&base_day);
        let rolled = roll(caller, list, count, day, series, if is_last { base_day } else { 0 });
        Rolled { base_day: base_day.saturating_add(u32::from(rolled.number == 0)), ..rolled }
    }),
    ("takes base days in sixteen bits", |caller, list, count, day, series, base_day| {
        roll(caller, list, count, day, series, base_day & 0xFFFF)
    }),
    ("says 31 where 64 rolls would not stay in range", |caller, list, count, day, series, base_day| {
        refused_if(base_day > 65_408, 31, caller, list, count, day, series, base_day)
    }),
];

/// Refuses with this number before anything else is looked at.
pub fn refused_if(
    refused: bool,
    number: u32,
    caller: Caller,
    list: &mut [u32],
    count: usize,
    day: &[u8],
    series: &[u8],
    base_day: u32,
) -> Rolled {
    if refused {
        Rolled { number, value: 0, count, base_day }
    } else {
        roll(caller, list, count, day, series, base_day)
    }
}
