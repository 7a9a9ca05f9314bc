//! Details of Build and Plan.

use crate::chirdaluko::{build, plan, BuildRefusal, Caller, Pools, Record};
use crate::details::Detail;
use crate::edit_details::NO_POOLS;
use crate::inputs::{chain, event, numbers, row};
use crate::schedule::{BASE_DAY, IDENTITY};
use crate::sections;

pub const ALL: [Detail; 8] = [
    ("A start of 10,799 stands in section 0, one of 10,800 in section 8: segments count from midnight UTC.", segments),
    (
        "The fifth day is table 0x51, and its events have the date of the base day + 4: \
         the date comes from the start.",
        date,
    ),
    ("A table of sections 0, 8 and 16 has last_section_number 16, not 3.", last_number),
    ("A table without events before the last table is one section without events, number 0.", empty_table),
    (
        "340 events without descriptors in one segment are two sections, of 339 and of 1; \
         for cable 84 are, of 83 and of 1.",
        packing,
    ),
    ("Which pool the descriptors came from is not in the file: both give the same bytes.", pools_alike),
    ("10 comes before 11, however short the output is.", unpackable_first),
    ("Where one segment is 255, Plan still counts the others.", other_counts),
];

/// Build's file of a list with these pools.
pub fn file_of(caller: Caller, records: &[Record], pools: Pools) -> Vec<u8> {
    file_from(caller, BASE_DAY, records, pools)
}

/// The same from another base day on.
pub fn file_from(caller: Caller, base_day: u32, records: &[Record], pools: Pools) -> Vec<u8> {
    let mut out = vec![0; 65_536];
    let length = build(caller, &numbers(records), records.len(), pools, base_day, IDENTITY, &mut out);
    out.truncate(length.expect("a file"));
    out
}

/// Table, section_number, last_section_number and bytes of its events, for each section.
fn shape(file: &[u8]) -> Vec<[usize; 4]> {
    let shape = |section: &[u8]| [section[0].into(), section[6].into(), section[7].into(), section.len() - 18];
    sections::of(file).iter().map(|(_, section)| shape(section)).collect()
}

fn segments(caller: Caller) -> bool {
    shape(&file_of(caller, &[event(1, 10_799)], NO_POOLS)) == [[0x50, 0, 0, 12]]
        && shape(&file_of(caller, &[event(1, 10_800)], NO_POOLS)) == [[0x50, 0, 8, 0], [0x50, 8, 8, 12]]
}

fn date(caller: Caller) -> bool {
    let file = file_of(caller, &[event(1, 4 * 86_400)], NO_POOLS);
    let date = u16::from_be_bytes([file[34], file[35]]);
    shape(&file) == [[0x50, 0, 0, 0], [0x51, 0, 0, 12]] && u32::from(date) == BASE_DAY + 4
}

fn last_number(caller: Caller) -> bool {
    let file = file_of(caller, &[event(1, 0), event(2, 10_800), event(3, 21_600)], NO_POOLS);
    shape(&file) == [[0x50, 0, 16, 12], [0x50, 8, 16, 12], [0x50, 16, 16, 12]]
}

fn empty_table(caller: Caller) -> bool {
    let file = file_of(caller, &[event(1, 8 * 86_400)], NO_POOLS);
    shape(&file) == [[0x50, 0, 0, 0], [0x51, 0, 0, 0], [0x52, 0, 0, 12]]
}

fn packing(caller: Caller) -> bool {
    let held = match caller {
        Caller::Broadcast => 339,
        Caller::Cable => 83,
    };
    shape(&file_of(caller, &row(held + 1), NO_POOLS)) == [[0x50, 0, 1, 12 * held], [0x50, 1, 1, 12]]
}

fn pools_alike(caller: Caller) -> bool {
    let bytes = chain(100);
    let from = |marks, day, series| {
        file_of(caller, &[Record { marks, chain_length: 100, ..event(1, 0) }], Pools { day, series })
    };
    from(0, &bytes, &[]) == from(Record::SERIES_POOL, &[], &bytes)
}

/// A list whose first segment is unpackable, and which has an event in its third.
fn with_unpackable<T>(caller: Caller, call: impl FnOnce(&[u32], Pools) -> T) -> T {
    let day = chain(caller.chain_max() + 1);
    let list = numbers(&[Record { chain_length: day.len() as u32, ..event(1, 0) }, event(2, 21_600)]);
    call(&list, Pools { day: &day, series: &[] })
}

fn unpackable_first(caller: Caller) -> bool {
    with_unpackable(caller, |list, pools| {
        let said = |length| build(caller, list, 2, pools, BASE_DAY, IDENTITY, &mut vec![0; length]);
        said(0) == Err(BuildRefusal::Unpackable { segment: 0 }) && said(65_536) == said(0)
    })
}

fn other_counts(caller: Caller) -> bool {
    let mut counts = [0; 512];
    with_unpackable(caller, |list, pools| plan(caller, list, 2, pools, &mut counts));
    counts[..4] == [255, 1, 1, 0]
}
