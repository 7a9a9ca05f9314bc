//! Faults of what a roll asks of a list: each stands in for the library, and must show.

use super::comparison::RollCall;
use super::day_lists::parts;
use super::order_faults::refused_if;
use super::outcome::DAY_SECONDS;
use crate::lists::{DURATION, ID, NUMBERS, START, START_END};
use crate::other::{roll, Caller, Rolled};

pub const ALL: [(&str, RollCall); 11] = [
    ("asks what stays alone to be sound", |caller, list, count, day, series, base_day| {
        let is_sound = sound_parts(caller, list, count, day, series).is_some_and(|[_, staying]| staying);
        accepted_if(is_sound, caller, list, count, day, series, base_day)
    }),
    ("asks what leaves alone to be sound", |caller, list, count, day, series, base_day| {
        let is_sound = sound_parts(caller, list, count, day, series).is_some_and(|[leaving, _]| leaving);
        accepted_if(is_sound, caller, list, count, day, series, base_day)
    }),
    ("asks what leaves and what stays to be sound", |caller, list, count, day, series, base_day| {
        let is_sound = sound_parts(caller, list, count, day, series) == Some([true, true]);
        accepted_if(is_sound, caller, list, count, day, series, base_day)
    }),
    ("compares ids with the neighbour alone", |caller, list, count, day, series, base_day| {
        let records: Vec<_> = list.chunks_exact(NUMBERS).take(count).collect();
        let is_sound = |two: &[&[u32]]| roll(caller, &mut two.concat(), 2, day, series, 0).number == 0;
        let may_be_sound = records.len() == count && (2..=caller.sizes().events).contains(&count);
        let is_sound = may_be_sound && records.windows(2).all(is_sound);
        accepted_if(is_sound, caller, list, count, day, series, base_day)
    }),
    ("loses bit 20 of an id", |caller, list, count, day, series, base_day| {
        let mut lost = list.to_vec();
        lost.iter_mut().skip(ID).step_by(NUMBERS).for_each(|id| *id &= !(1 << 20));
        let is_sound = roll(caller, &mut lost, count, day, series, 0).number == 0;
        accepted_if(is_sound, caller, list, count, day, series, base_day)
    }),
    ("takes the count in 32 bits", |caller, list, count, day, series, base_day| {
        let rolled = roll(caller, list, count as u32 as usize, day, series, base_day);
        Rolled { count: if rolled.number == 0 { rolled.count } else { count }, ..rolled }
    }),
    ("cuts the count to the buffer", |caller, list, count, day, series, base_day| {
        let held = count.min(list.len() / NUMBERS);
        let rolled = roll(caller, list, held, day, series, base_day);
        Rolled { count: if rolled.number == 0 { rolled.count } else { count }, ..rolled }
    }),
    ("takes no list without events", |caller, list, count, day, series, base_day| {
        refused_if(count == 0 && base_day < 65_472, 12, caller, list, count, day, series, base_day)
    }),
    ("takes no list of which none stays", |caller, list, count, day, series, base_day| {
        let none_stays = |list: &[u32]| list.chunks(NUMBERS).all(|event| event[START] < DAY_SECONDS);
        let refused = is_sound_and(none_stays, caller, list, count, day, series, base_day) && count > 0;
        refused_if(refused, 12, caller, list, count, day, series, base_day)
    }),
    ("takes no list with a programme over midnight", |caller, list, count, day, series, base_day| {
        let is_over = |event: &[u32]| event[START] < DAY_SECONDS && event[START] + event[DURATION] > DAY_SECONDS;
        let has_it = |list: &[u32]| list.chunks(NUMBERS).any(is_over);
        let refused = is_sound_and(has_it, caller, list, count, day, series, base_day);
        refused_if(refused, 12, caller, list, count, day, series, base_day)
    }),
    ("takes no list that ends past the window", |caller, list, count, day, series, base_day| {
        let is_past = |event: &[u32]| event[START] + event[DURATION] > START_END;
        let has_it = |list: &[u32]| list.chunks(NUMBERS).any(is_past);
        let refused = is_sound_and(has_it, caller, list, count, day, series, base_day);
        refused_if(refused, 12, caller, list, count, day, series, base_day)
    }),
];

/// Whether the records that leave, and those that stay, are a sound list each; nothing if the buffer lacks some.
fn sound_parts(caller: Caller, list: &[u32], count: usize, day: &[u8], series: &[u8]) -> Option<[bool; 2]> {
    let is_sound = |mut records: Vec<u32>| {
        let count = records.len() / NUMBERS;
        roll(caller, &mut records, count, day, series, 0).number == 0
    };
    parts(list, count).map(|parts| parts.map(is_sound))
}

/// Whether the list can be rolled, and this holds of its records.
fn is_sound_and(
    holds: impl Fn(&[u32]) -> bool,
    caller: Caller,
    list: &[u32],
    count: usize,
    day: &[u8],
    series: &[u8],
    base_day: u32,
) -> bool {
    roll(caller, &mut list.to_vec(), count, day, series, base_day).number == 0 && holds(&list[..NUMBERS * count])
}

/// Rolls a list that is not sound, too, if it is one that is accepted.
fn accepted_if(
    is_accepted: bool,
    caller: Caller,
    list: &mut [u32],
    count: usize,
    day: &[u8],
    series: &[u8],
    base_day: u32,
) -> Rolled {
    let rolled = roll(caller, list, count, day, series, base_day);
    match parts(list, count) {
        Some([leaving, staying]) if rolled.number == 12 && is_accepted => {
            list[..staying.len()].copy_from_slice(&staying);
            list[staying.len()..][..leaving.len()].fill(0);
            let count = staying.len() / NUMBERS;
            list.iter_mut().skip(START).step_by(NUMBERS).take(count).for_each(|start| *start -= DAY_SECONDS);
            Rolled { number: 0, value: count, count, base_day: base_day + 1 }
        }
        _ => rolled,
    }
}
