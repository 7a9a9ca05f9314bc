//! Build: 01, "Build, Read" and "When a call says no", and 02, W-206 and W-208.

use super::caller::Caller;
use super::event::Pools;
use super::schedule::{Lent, Method, Schedule, Segment, PAPERS, SECTIONS_MAX, SEGMENTS};
use super::section::{Header, Identity};

const BASE_DAY_MAX: u32 = 65_472;
const VERSION_MAX: u8 = 31;
const TABLE_ID_FIRST: u8 = 0x50;

const BASE_DAY_ABOVE: u32 = 1;
const VERSION_ABOVE: u32 = 2;
const NOT_PACKABLE: u32 = 10;
const OUTPUT_SHORT: u32 = 11;
const UNSOUND: u32 = 12;

/// 01's number and value.
#[derive(Clone, Copy, Debug, PartialEq)]
pub struct Built {
    pub number: u32,
    pub value: usize,
}

pub fn build(caller: Caller, lent: &Lent, base_day: u32, identity: Identity, output: &mut [u8]) -> Built {
    build_by(PAPERS, caller, lent, base_day, identity, output)
}

/// Build by another method than the papers': the self-check's faults have their own.
pub fn build_by(
    method: Method,
    caller: Caller,
    lent: &Lent,
    base_day: u32,
    identity: Identity,
    output: &mut [u8],
) -> Built {
    match written(method, caller, lent, base_day, identity) {
        Ok(file) => put(&file, output),
        Err(refusal) => refusal,
    }
}

/// The file, or the refusal that comes before the output is looked at.
pub fn written(
    method: Method,
    caller: Caller,
    lent: &Lent,
    base_day: u32,
    identity: Identity,
) -> Result<Vec<u8>, Built> {
    if base_day > BASE_DAY_MAX {
        return Err(Built { number: BASE_DAY_ABOVE, value: 0 });
    }
    if identity.versions.iter().any(|version| *version > VERSION_MAX) {
        return Err(Built { number: VERSION_ABOVE, value: 0 });
    }
    let schedule = Schedule::of(method, caller, lent).ok_or(Built { number: UNSOUND, value: 0 })?;
    match packed(method, caller, &schedule) {
        Ok(tables) => Ok(file(&tables, lent.pools(), base_day, identity)),
        Err(index) => Err(Built { number: NOT_PACKABLE, value: index }),
    }
}

/// Writes the file to the front of the output, if it is not short.
pub fn put(file: &[u8], output: &mut [u8]) -> Built {
    let Some(front) = output.get_mut(..file.len()) else {
        return Built { number: OUTPUT_SHORT, value: file.len() };
    };
    front.copy_from_slice(file);
    Built { number: 0, value: file.len() }
}

/// Every table's segments with their sections, or the index of the first segment that is unpackable.
fn packed(method: Method, caller: Caller, schedule: &Schedule) -> Result<Vec<Vec<Segment<'_>>>, usize> {
    let room = (method.sizes)(caller).room();
    let segment = |table, segment| {
        let events = schedule.events(table, segment);
        (method.packing)(room, events).ok_or(SEGMENTS * table + segment)
    };
    let table = |table| (0..=schedule.last_segment(table)).map(|place| segment(table, place)).collect();
    (0..=schedule.last_table()).map(table).collect()
}

/// The sections of every table, joined.
pub fn file(tables: &[Vec<Segment>], pools: Pools, base_day: u32, identity: Identity) -> Vec<u8> {
    let mut file = Vec::new();
    for (table, segments) in tables.iter().enumerate() {
        let last_section = |segment: usize| (SECTIONS_MAX * segment + segments[segment].len() - 1) as u8;
        for (segment, sections) in segments.iter().enumerate() {
            for (place, events) in sections.iter().enumerate() {
                let header = Header {
                    table_id: TABLE_ID_FIRST + table as u8,
                    version: identity.versions[table],
                    section_number: (SECTIONS_MAX * segment + place) as u8,
                    last_section_number: last_section(segments.len() - 1),
                    segment_last_section_number: last_section(segment),
                    last_table_id: TABLE_ID_FIRST + (tables.len() - 1) as u8,
                };
                header.write(identity.triplet, base_day, events, pools, &mut file);
            }
        }
    }
    file
}
