//! Faults of which tables are the same, and of the versions that others take: each stands in for the library, and must
//! show.

use crate::other::{crc32_by_table, RebuildMethod, REBUILD_PAPERS};

// Where a section has its fields, and what stands before its events and behind them.
const SECTION_LENGTH: usize = 1;
const VERSION: usize = 5;
const SECTION_NUMBER: usize = 6;
const LAST_TABLE_ID: usize = 13;
const FRONT: usize = 14;
const CRC: usize = 4;

/// The byte of version 0.
const VERSION_0: u8 = 0xC1;

pub fn all() -> Vec<(&'static str, RebuildMethod)> {
    let raised = RAISED.map(|(fault, raised)| (fault, RebuildMethod { raised, ..REBUILD_PAPERS }));
    let equal = EQUAL.map(|(fault, are_equal)| (fault, RebuildMethod { are_equal, ..REBUILD_PAPERS }));
    let first = ("gives a table that was not there version 1", RebuildMethod { first: 1, ..REBUILD_PAPERS });
    raised.into_iter().chain(equal).chain([first]).collect()
}

/// What a table that changed takes.
const RAISED: [(&str, fn(u8) -> u8); 5] = [
    ("keeps the version of a table that changed", |version| version),
    ("stays at version 31", |version| (version + 1).min(31)),
    ("begins again at 1 after 31", |version| version % 31 + 1),
    ("begins again after 30", |version| (version + 1) % 31),
    ("raises by 2", |version| (version + 2) % 32),
];

/// Which tables are the same: those whose sections are, before and now.
const EQUAL: [(&str, fn(&[&[u8]], &[&[u8]]) -> bool); 12] = [
    ("raises the version of a table that is the same", |_, _| false),
    ("leaves last_table_id out of the comparison", |before, now| {
        each_two(before, now, |before, now| {
            let mut now = now.to_vec();
            now[LAST_TABLE_ID] = before[LAST_TABLE_ID];
            is_same(before, &now)
        })
    }),
    ("compares CRC_32 with that under version 0", |before, now| {
        each_two(before, now, |before, now| {
            let mut covered = now[..now.len() - CRC].to_vec();
            covered[VERSION] = VERSION_0;
            is_same(before, now) && before[covered.len()..] == crc32_by_table(&covered).to_be_bytes()
        })
    }),
    ("compares the version with 0", |before, now| {
        each_two(before, now, |before, now| before[VERSION] == VERSION_0 && is_same(before, now))
    }),
    ("compares the lengths of sections alone", |before, now| {
        each_two(before, now, |before, now| before[SECTION_LENGTH..VERSION] == now[SECTION_LENGTH..VERSION])
    }),
    ("compares the headers of sections alone", |before, now| {
        each_two(before, now, |before, now| before[SECTION_NUMBER..FRONT] == now[SECTION_NUMBER..FRONT])
    }),
    ("compares the events alone, however they are cut", |before, now| {
        before[0][LAST_TABLE_ID] == now[0][LAST_TABLE_ID] && events(before) == events(now)
    }),
    ("compares a table's first section alone", |before, now| is_same(before[0], now[0])),
    ("compares a table's last section alone", |before, now| is_same(before[before.len() - 1], now[now.len() - 1])),
    ("compares the first sections of segments alone", |before, now| {
        each_two(before, now, |before, now| before[SECTION_NUMBER] % 8 != 0 || is_same(before, now))
    }),
    ("does not compare the last byte of a section's events", |before, now| {
        each_two(before, now, |before, now| is_same(&before[..before.len() - 1], &now[..now.len() - 1]))
    }),
    ("compares 255 bytes of a section at most", |before, now| {
        let up_to = |section: &[u8]| section.len().min(255 + CRC);
        each_two(before, now, |before, now| is_same(&before[..up_to(before)], &now[..up_to(now)]))
    }),
];

/// As many sections, of the same lengths, and this of each two.
fn each_two(before: &[&[u8]], now: &[&[u8]], holds: impl Fn(&[u8], &[u8]) -> bool) -> bool {
    let holds = |(before, now): (&&[u8], &&[u8])| before.len() == now.len() && holds(before, now);
    before.len() == now.len() && before.iter().zip(now).all(holds)
}

/// The same bytes, version and CRC_32 aside.
fn is_same(before: &[u8], now: &[u8]) -> bool {
    before[..VERSION] == now[..VERSION] && before[VERSION + 1..before.len() - CRC] == now[VERSION + 1..now.len() - CRC]
}

/// The events' bytes of all sections.
fn events(table: &[&[u8]]) -> Vec<u8> {
    table.iter().flat_map(|section| &section[FRONT..section.len() - CRC]).copied().collect()
}
