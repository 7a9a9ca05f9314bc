//! Faults of Build that no file shows alone, but two of them, before and after a roll; and faults of Rebuild after one.
//! Each stands in for the library, and must show.

use super::comparison::RebuildCall;
use crate::build::{each_section, BuildCall, Section};
use crate::lists::{NUMBERS, START};
use crate::other::{build, build_by, pack, rebuild, Built, Event, Lent, Method, PAPERS};

/// Where a section has its version, and an event its date.
const VERSION: usize = 5;
const DATE: usize = 2;

const TABLE_SECONDS: u32 = 345_600;
const LAST_DAY_START: u32 = 5_443_200;

pub const BUILDS: [(&str, BuildCall); 6] = [
    ("takes an event's day from its table", |caller, lent, base_day, identity, output| {
        let built = build(caller, lent, base_day, identity, output);
        each_event(built, output, |table, event| set_date(event, base_day + 4 * table))
    }),
    ("has the base day for every event's", |caller, lent, base_day, identity, output| {
        let built = build(caller, lent, base_day, identity, output);
        each_event(built, output, |_, event| set_date(event, base_day))
    }),
    ("carries no day over into the date's high byte", |caller, lent, base_day, identity, output| {
        let built = build(caller, lent, base_day, identity, output);
        each_event(built, output, |_, event| event[DATE] = (base_day >> 8) as u8)
    }),
    ("leaves out the window's last day", |caller, lent, base_day, identity, output| {
        let starts = lent.list.iter().skip(START).step_by(NUMBERS).take(lent.count);
        let count = starts.take_while(|start| **start < LAST_DAY_START).count();
        build(caller, &Lent { count, ..*lent }, base_day, identity, output)
    }),
    ("fills half of a section in table 0x50", |caller, lent, base_day, identity, output| {
        build_by(Method { packing: half_full, ..PAPERS }, caller, lent, base_day, identity, output)
    }),
    ("takes four events in a segment of table 0x50 at most", |caller, lent, base_day, identity, output| {
        build_by(Method { packing: four_events, ..PAPERS }, caller, lent, base_day, identity, output)
    }),
];

pub const REBUILDS: [(&str, RebuildCall); 4] = [
    ("builds under the previous base day", |caller, previous, lent, _, output| {
        rebuild(caller, previous, lent, previous.base_day, output)
    }),
    ("writes the previous file", |_, previous, _, _, output| match output.get_mut(..previous.file.len()) {
        None => Built { number: 11, value: previous.file.len() },
        Some(front) => {
            front.copy_from_slice(previous.file);
            Built { number: 0, value: previous.file.len() }
        }
    }),
    ("raises a version by 2", |caller, previous, lent, base_day, output| {
        let built = rebuild(caller, previous, lent, base_day, output);
        let version = |file: &[u8]| file[VERSION] >> 1 & 31;
        let raised = (version(previous.file) + 2) % 32;
        each_section(built, output, |section| section[VERSION] = 0xC1 | raised << 1)
    }),
    ("leaves out the last event", |caller, previous, lent, base_day, output| {
        let count = lent.count.saturating_sub(1);
        rebuild(caller, previous, &Lent { count, ..*lent }, base_day, output)
    }),
];

/// Half of the bytes that a section has for its events, in table 0x50.
fn half_full(room: usize, events: &[Event]) -> Option<Vec<&[Event]>> {
    pack(if is_in_table_0x50(events) { room / 2 } else { room }, events)
}

/// At most four events in a segment, in table 0x50.
fn four_events(room: usize, events: &[Event]) -> Option<Vec<&[Event]>> {
    pack(room, events).filter(|_| events.len() <= 4 || !is_in_table_0x50(events))
}

fn is_in_table_0x50(events: &[Event]) -> bool {
    events.first().is_some_and(|event| event.start < TABLE_SECONDS)
}

/// Changes each event of the file, by its table's place among the sixteen.
fn each_event(built: Built, output: &mut [u8], change: impl Fn(u32, &mut [u8])) -> Built {
    each_section(built, output, |bytes| {
        for event in (Section { bytes }).events() {
            change(u32::from(bytes[0] - 0x50), &mut bytes[event..]);
        }
    })
}

fn set_date(event: &mut [u8], day: u32) {
    event[DATE..DATE + 2].copy_from_slice(&(day as u16).to_be_bytes());
}
