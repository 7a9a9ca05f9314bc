//! Faults of what is refused, and of the order in which list and start are looked at: each stands in for the library,
//! and must show.

use super::comparison::RoomCall;
use super::parts::{of_segment, up_to_start};
use crate::lists::{LENGTH, NUMBERS, START, START_END};
use crate::other::{chain_room_halved, fewest_sections, Caller, ChainRoom, Lent, EVENT_FRONT};

const NONE: ChainRoom = ChainRoom { number: 0, length: None };

pub const ALL: [(&str, RoomCall); 12] = [
    ("serves the other caller", |caller, lent, start| chain_room_halved(caller.other(), lent, start)),
    ("looks at the window before the list", |caller, lent, start| none_if(start >= START_END, caller, lent, start)),
    ("looks for a taken start before it looks at the list", |caller, lent, start| {
        let is_taken = records(lent).any(|record| record[START] == start);
        none_if(is_taken, caller, lent, start)
    }),
    ("looks at the segment's bytes before it looks at the list", |caller, lent, start| {
        let own = of_segment(&held(lent), start).unwrap_or_default();
        let bytes: Vec<_> = own.chunks(NUMBERS).map(|record| EVENT_FRONT + record[LENGTH] as usize).collect();
        let sections = fewest_sections(caller.sizes().room(), &[&bytes[..], &[EVENT_FRONT]].concat());
        none_if(sections.is_none_or(|sections| sections > 8), caller, lent, start)
    }),
    ("asks the segment's events alone to be sound", |caller, lent, start| {
        by_part(of_segment(lent, start), caller, lent, start)
    }),
    ("asks the events up to the start alone to be sound", |caller, lent, start| {
        match by_part(up_to_start(lent, start), caller, lent, start) {
            ChainRoom { number: 12, .. } => chain_room_halved(caller, lent, start),
            // What the whole list has, if it is sound.
            part => match chain_room_halved(caller, lent, start) {
                ChainRoom { number: 12, .. } => part,
                whole => whole,
            },
        }
    }),
    ("cuts the count to the buffer", |caller, lent, start| chain_room_halved(caller, &held(lent), start)),
    ("takes the count in 32 bits", |caller, lent, start| {
        chain_room_halved(caller, &Lent { count: lent.count as u32 as usize, ..*lent }, start)
    }),
    ("reads a record behind the count", |caller, lent, start| {
        match chain_room_halved(caller, &Lent { count: lent.count.saturating_add(1), ..*lent }, start) {
            ChainRoom { number: 12, .. } => chain_room_halved(caller, lent, start),
            longer => longer,
        }
    }),
    ("has none for an unsound list", |caller, lent, start| match chain_room_halved(caller, lent, start) {
        ChainRoom { number: 12, .. } => NONE,
        sound => sound,
    }),
    ("gives 0 with 12", |caller, lent, start| match chain_room_halved(caller, lent, start) {
        ChainRoom { number: 12, .. } => ChainRoom { number: 12, length: Some(0) },
        sound => sound,
    }),
    ("says 12 for a start past the last segment", |caller, lent, start| {
        let room = chain_room_halved(caller, lent, start);
        ChainRoom { number: if start >= START_END { 12 } else { room.number }, ..room }
    }),
];

/// None, if this holds, whatever the list.
fn none_if(is_none: bool, caller: Caller, lent: &Lent, start: u32) -> ChainRoom {
    if is_none {
        NONE
    } else {
        chain_room_halved(caller, lent, start)
    }
}

/// The list's records that are in the buffer.
fn records<'a>(lent: &Lent<'a>) -> impl Iterator<Item = &'a [u32]> {
    lent.list.chunks_exact(NUMBERS).take(lent.count)
}

/// The list with a count of at most what the buffer holds.
fn held<'a>(lent: &Lent<'a>) -> Lent<'a> {
    Lent { count: lent.count.min(lent.list.len() / NUMBERS), ..*lent }
}

/// The answer by these records alone; by the whole list, if the buffer lacks some.
fn by_part(records: Option<Vec<u32>>, caller: Caller, lent: &Lent, start: u32) -> ChainRoom {
    match records {
        Some(list) => chain_room_halved(caller, &Lent { list: &list, count: list.len() / NUMBERS, ..*lent }, start),
        None => chain_room_halved(caller, lent, start),
    }
}
