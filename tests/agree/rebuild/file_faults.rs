//! Faults of Rebuild's file: the other implementation with a fault stands in for the library, and the comparison must
//! show it.

use super::comparison::RebuildCall;
use crate::build::each_section;
use crate::other::{check, rebuild, Built, Caller, Lent, Previous};

// Where a section has its fields.
const VERSION: usize = 5;
const SERVICE_ID: usize = 3;
const TRANSPORT_STREAM_ID: usize = 8;
const ORIGINAL_NETWORK_ID: usize = 10;
const LAST_TABLE_ID: usize = 13;

pub const ALL: [(&str, RebuildCall); 11] = [
    ("has the version of table 0x50 in every table", |caller, previous, lent, base_day, output| {
        with_versions(caller, previous, lent, base_day, output, |_, now| *now = [now[0]; 16])
    }),
    ("has version 0 in every table", |caller, previous, lent, base_day, output| {
        with_versions(caller, previous, lent, base_day, output, |_, now| *now = [0; 16])
    }),
    ("raises every table's version if one table changed", |caller, previous, lent, base_day, output| {
        with_versions(caller, previous, lent, base_day, output, |before, now| {
            if now != before {
                *now = before.map(|version| (version + 1) % 32);
            }
        })
    }),
    ("raises the tables behind one that changed, too", |caller, previous, lent, base_day, output| {
        with_versions(caller, previous, lent, base_day, output, |before, now| {
            let first = (0..16).find(|table| now[*table] != before[*table]).unwrap_or(16);
            (first..16).for_each(|table| now[table] = (before[table] + 1) % 32);
        })
    }),
    ("raises table 0x50's version alone", |caller, previous, lent, base_day, output| {
        with_versions(caller, previous, lent, base_day, output, |before, now| now[1..].copy_from_slice(&before[1..]))
    }),
    ("never raises the last table's version", |caller, previous, lent, base_day, output| {
        with_versions(caller, previous, lent, base_day, output, |before, now| now[15] = before[15])
    }),
    ("gives a table that was not there the version of 0x50", |caller, previous, lent, base_day, output| {
        let last = previous.file.get(LAST_TABLE_ID).map_or(0, |last| usize::from(last.wrapping_sub(0x50)));
        with_versions(caller, previous, lent, base_day, output, |_, now| {
            let first = now[0];
            now.iter_mut().skip(last + 1).for_each(|version| *version = first);
        })
    }),
    ("leaves CRC_32 as it is under the old version", |caller, previous, lent, base_day, output| {
        let built = rebuild(caller, previous, lent, base_day, output);
        let before = check(caller, previous.file, previous.base_day).identity.versions;
        let mut now = Vec::new();
        each_section(built, output, |section| {
            now.push(section[VERSION]);
            section[VERSION] = 0xC1 | before[usize::from(section[0] - 0x50)] << 1;
        });
        // Sealed under the old version, and then given the new one.
        let mut file = &mut output[..if built.number == 0 { built.value } else { 0 }];
        for version in now {
            let (section, behind) = file.split_at_mut(3 + (usize::from(file[1] & 15) << 8 | usize::from(file[2])));
            section[VERSION] = version;
            file = behind;
        }
        built
    }),
    ("builds under service 0", |caller, previous, lent, base_day, output| {
        let built = rebuild(caller, previous, lent, base_day, output);
        each_section(built, output, |section| section[SERVICE_ID..SERVICE_ID + 2].fill(0))
    }),
    ("confuses stream and network", |caller, previous, lent, base_day, output| {
        let built = rebuild(caller, previous, lent, base_day, output);
        each_section(built, output, |section| {
            (0..2).for_each(|byte| section.swap(TRANSPORT_STREAM_ID + byte, ORIGINAL_NETWORK_ID + byte));
        })
    }),
    ("keeps the previous file's last_table_id", |caller, previous, lent, base_day, output| {
        let built = rebuild(caller, previous, lent, base_day, output);
        each_section(built, output, |section| section[LAST_TABLE_ID] = previous.file[LAST_TABLE_ID])
    }),
];

/// Rebuild with other versions than it should have, by those before and those now.
fn with_versions(
    caller: Caller,
    previous: Previous,
    lent: &Lent,
    base_day: u32,
    output: &mut [u8],
    change: impl FnOnce(&[u8; 16], &mut [u8; 16]),
) -> Built {
    let built = rebuild(caller, previous, lent, base_day, output);
    let before = check(caller, previous.file, previous.base_day).identity.versions;
    let mut now = [0; 16];
    each_section(built, output, |section| now[usize::from(section[0] - 0x50)] = section[VERSION] >> 1 & 31);
    change(&before, &mut now);
    each_section(built, output, |section| section[VERSION] = 0xC1 | now[usize::from(section[0] - 0x50)] << 1)
}
