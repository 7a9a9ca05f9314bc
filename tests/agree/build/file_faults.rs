//! Faults of Build's file: the other implementation with a fault stands in for the library, and the comparison must
//! show it.

use super::comparison::BuildCall;
use super::rewritten::{each_event, each_section, each_section_raw, seal, sections_by_table};
use crate::other::{build, Built};

// Where a section has its fields, and an event in it.
const VERSION: usize = 5;
const SECTION_NUMBER: usize = 6;
const LAST_SECTION_NUMBER: usize = 7;
const SEGMENT_LAST_SECTION_NUMBER: usize = 12;
const LAST_TABLE_ID: usize = 13;
const START_HOURS: usize = 4;
const DURATION_HOURS: usize = 7;
const STATUS: usize = 10;

/// A section without events.
const SECTION_MIN: usize = 18;

pub const ALL: [(&str, BuildCall); 17] = [
    // 01, "What engineers write first".
    ("takes the number of sections for last_section_number", |caller, lent, base_day, identity, output| {
        let built = build(caller, lent, base_day, identity, output);
        let counts = sections_by_table(built, output);
        each_section(built, output, |section| section[LAST_SECTION_NUMBER] = counts[usize::from(section[0])])
    }),
    ("numbers a table's sections without a gap", |caller, lent, base_day, identity, output| {
        let built = build(caller, lent, base_day, identity, output);
        let counts = sections_by_table(built, output);
        let mut numbers = [0u8; 256];
        each_section(built, output, |section| {
            let table = usize::from(section[0]);
            let behind = section[SEGMENT_LAST_SECTION_NUMBER] - section[SECTION_NUMBER];
            section[SECTION_NUMBER] = numbers[table];
            section[SEGMENT_LAST_SECTION_NUMBER] = numbers[table].wrapping_add(behind);
            section[LAST_SECTION_NUMBER] = counts[table].wrapping_sub(1);
            numbers[table] = numbers[table].wrapping_add(1);
        })
    }),
    ("takes an event's day from its table", |caller, lent, base_day, identity, output| {
        let built = build(caller, lent, base_day, identity, output);
        each_event(built, output, |table_id, _, event| {
            let day = base_day + 4 * u32::from(table_id - 0x50);
            event[2..4].copy_from_slice(&(day as u16).to_be_bytes());
        })
    }),
    ("leaves empty segments out", |caller, lent, base_day, identity, output| {
        let built = build(caller, lent, base_day, identity, output);
        let mut file = Vec::new();
        each_section_raw(built, output, |section| {
            if section.len() > SECTION_MIN || section[SECTION_NUMBER] == 0 {
                file.extend_from_slice(section);
            }
        });
        rewritten(built, &file, output)
    }),
    // Bytes.
    ("does not shift the version", |caller, lent, base_day, identity, output| {
        let built = build(caller, lent, base_day, identity, output);
        each_section(built, output, |section| section[VERSION] = 0b1100_0001 | section[VERSION] >> 1 & 31)
    }),
    ("has the version of table 0x50 in every table", |caller, lent, base_day, identity, output| {
        let built = build(caller, lent, base_day, identity, output);
        each_section(built, output, |section| section[VERSION] = version_byte(identity.versions[0]))
    }),
    ("has the last table's version in every table", |caller, lent, base_day, identity, output| {
        let built = build(caller, lent, base_day, identity, output);
        each_section(built, output, |section| {
            section[VERSION] = version_byte(identity.versions[usize::from(section[LAST_TABLE_ID] - 0x50)]);
        })
    }),
    ("has the version of the table before", |caller, lent, base_day, identity, output| {
        let built = build(caller, lent, base_day, identity, output);
        each_section(built, output, |section| {
            let before = usize::from(section[0] - 0x50).saturating_sub(1);
            section[VERSION] = version_byte(identity.versions[before]);
        })
    }),
    ("has its table's version in a segment's first section alone", |caller, lent, base_day, identity, output| {
        let built = build(caller, lent, base_day, identity, output);
        each_section(built, output, |section| {
            if section[SECTION_NUMBER] % 8 != 0 {
                section[VERSION] = version_byte(identity.versions[0]);
            }
        })
    }),
    ("takes CRC_32 from behind section_length", |caller, lent, base_day, identity, output| {
        let built = build(caller, lent, base_day, identity, output);
        each_section_raw(built, output, |section| seal(section, 3))
    }),
    ("has 0x5F for last_table_id", |caller, lent, base_day, identity, output| {
        let built = build(caller, lent, base_day, identity, output);
        each_section(built, output, |section| section[LAST_TABLE_ID] = 0x5F)
    }),
    ("has section_number for segment_last_section_number", |caller, lent, base_day, identity, output| {
        let built = build(caller, lent, base_day, identity, output);
        each_section(built, output, |section| section[SEGMENT_LAST_SECTION_NUMBER] = section[SECTION_NUMBER])
    }),
    ("puts marks 2 into the status", |caller, lent, base_day, identity, output| {
        let built = build(caller, lent, base_day, identity, output);
        each_event(built, output, |_, place, event| event[STATUS] |= (lent.list[6 * place + 3] as u8 & 2) << 5)
    }),
    ("has running_status 4 for off air", |caller, lent, base_day, identity, output| {
        let built = build(caller, lent, base_day, identity, output);
        each_event(built, output, |_, _, event| event[STATUS] &= 0b1001_1111)
    }),
    ("writes hours in binary", |caller, lent, base_day, identity, output| {
        let built = build(caller, lent, base_day, identity, output);
        each_event(built, output, |_, _, event| event[START_HOURS] = hours(event[START_HOURS]))
    }),
    ("begins a duration's hours again after 23", |caller, lent, base_day, identity, output| {
        let built = build(caller, lent, base_day, identity, output);
        each_event(built, output, |_, _, event| {
            let left = hours(event[DURATION_HOURS]) % 24;
            event[DURATION_HOURS] = left / 10 << 4 | left % 10;
        })
    }),
    ("carries no day over into the date's high byte", |caller, lent, base_day, identity, output| {
        let built = build(caller, lent, base_day, identity, output);
        each_event(built, output, |_, _, event| event[2] = (base_day >> 8) as u8)
    }),
];

/// Bits 11, the version, current_next 1.
fn version_byte(version: u8) -> u8 {
    0b1100_0001 | version << 1
}

/// Two BCD digits as a number.
fn hours(digits: u8) -> u8 {
    10 * (digits >> 4) + (digits & 0x0F)
}

/// The answer with another file, not longer, over the front of the one that was built.
fn rewritten(built: Built, file: &[u8], output: &mut [u8]) -> Built {
    if built.number != 0 {
        return built;
    }
    output[..file.len()].copy_from_slice(file);
    Built { number: 0, value: file.len() }
}
