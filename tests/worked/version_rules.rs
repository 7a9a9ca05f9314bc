//! What a version is in each call, each a sentence and the calls that show it, for both callers.

use crate::chirdaluko::{build, check, read, BuildRefusal, Caller, ReadRefusal, Reading, Record, TABLES};
use crate::details::{self, Detail};
use crate::edit_details::NO_POOLS;
use crate::inputs::{event, numbers};
use crate::rebuilt::{built, identity, rebuilt, seal, tables, versions, versions_of, with_version};
use crate::schedule::BASE_DAY;
use crate::sections;

const ALL: [Detail; 4] = [
    (
        "**Build** takes sixteen versions, the first for table 0x50 and the last for 0x5F, and writes each to all \
         sections of its table. All sixteen are looked at (2), those of tables that the file does not have, too: give \
         0 for them.",
        written,
    ),
    (
        "**Read and check** return sixteen versions, 0 for each table that the file does not have. Its tables are \
         those up to last_table_id, byte 13 of every section.",
        returned,
    ),
    (
        "**Rebuild** compares, table by table, the file that Build writes of the new list with the previous one. A \
         table has changed if any byte but version and CRC_32 has, in any of its sections: an event, a cut, \
         last_table_id. It keeps its version if it has not changed, and has the old one plus 1 if it has, after 31 it \
         is 0. A table that the previous file lacks has 0.",
        compared,
    ),
    (
        "**22** is a section whose version differs from that of an earlier section of its table, wherever that stood. \
         The versions of two tables may differ.",
        differing,
    ),
];

pub fn print() {
    details::print_under("## Versions", &ALL);
}

/// Two segments in each of the first so many tables.
fn schedule(count: u32) -> Vec<Record> {
    let starts = (0..count).flat_map(|table| [345_600 * table, 345_600 * table + 10_800]);
    starts.enumerate().map(|(place, start)| event(place as u32, start)).collect()
}

/// Sixteen versions, no two of neighbours equal.
const MIXED: [u8; TABLES] = [31, 0, 1, 30, 2, 29, 3, 28, 4, 27, 5, 26, 6, 25, 7, 24];

fn written(caller: Caller) -> bool {
    let is_own = |(_, section): &(usize, &[u8])| section[5] == 0xC1 | MIXED[usize::from(section[0] - 0x50)] << 1;
    let said = |versions: [u8; TABLES]| {
        let mut out = [0; 42];
        build(caller, &numbers(&[event(1, 0)]), 1, NO_POOLS, BASE_DAY, identity(&versions), &mut out)
    };
    (1..=16).all(|count| sections::of(&built(caller, &schedule(count), &MIXED)).iter().all(is_own))
        && said([31; TABLES]) == Ok(30)
        && (0..TABLES).all(|table| {
            let mut above = MIXED;
            above[table] = 32;
            said(above) == Err(BuildRefusal::Version)
        })
}

/// A file of each number of tables, and a later last_table_id.
fn returned(caller: Caller) -> bool {
    let later = |file: &[u8]| {
        let last = sections::section([0x51, 0, 0, 0, 0x51], &[]);
        let mut front = file.to_vec();
        front[13] = 0x51;
        seal(&mut front);
        [front, last].concat()
    };
    let one = later(&built(caller, &[event(1, 0)], &[9]));
    (1..=16).all(|count| {
        let file = built(caller, &schedule(count as u32), &MIXED);
        let identity = identity(&MIXED[..count]);
        let accepted = Ok(Reading { count: 2 * count, identity });
        check(caller, &file, BASE_DAY) == accepted
            && read(caller, &file, BASE_DAY, &mut [0; 6 * 32]) == accepted
            && sections::of(&file).iter().all(|(_, section)| usize::from(section[13]) == 0x50 + count - 1)
    }) && tables(&one) == 2
        && versions_of(caller, &one, BASE_DAY) == [9, 0]
}

/// Three tables. The same list; a change in each; a later last table, and an earlier one; the first segment's event cut
/// from a section of two.
fn compared(caller: Caller) -> bool {
    let held = schedule(3);
    let file = built(caller, &held, &[5, 31, 6]);
    let changed = |table: usize| {
        let mut records = held.clone();
        records[2 * table + 1].duration += 1;
        records
    };
    let versions_after = |previous: &[u8], records: &[Record]| {
        let file = rebuilt(caller, previous, records);
        let versions = versions_of(caller, &file, BASE_DAY);
        assert_eq!(file, built(caller, records, &versions), "Build's file under these versions");
        versions
    };
    let after = |records: &[Record]| versions_after(&file, records);
    let cut = [
        sections::section([0x50, 0, 1, 1, 0x50], &[sections::event(1, 0x00, 0x10)]),
        sections::section([0x50, 1, 1, 1, 0x50], &[sections::event(2, 0x01, 0x00)]),
    ];
    let joined = [event(1, 600), event(2, 3_600)];
    rebuilt(caller, &file, &held) == file
        && after(&changed(0)) == [6, 31, 6]
        && after(&changed(1)) == [5, 0, 6]
        && after(&changed(2)) == [5, 31, 7]
        && after(&schedule(4)) == [6, 0, 7, 0]
        && after(&schedule(16)) == [[6, 0, 7].as_slice(), &[0; 13]].concat()
        && after(&schedule(2)) == [6, 0]
        && after(&[]) == [6]
        && versions_after(&cut.concat(), &joined) == [1]
}

/// Two tables of two sections: another version of one section, and of both of a table; every pair of versions.
fn differing(caller: Caller) -> bool {
    let file = built(caller, &schedule(2), &[1, 2]);
    let said = |file: &[u8]| check(caller, file, BASE_DAY).map(|reading| reading.identity.versions);
    let one =
        |table: u8, number: u8| said(&with_version(&file, 3, |section| section[0] == table && section[6] == number));
    let header = |offset| Err(ReadRefusal::Header { offset });
    [one(0x50, 0), one(0x50, 8), one(0x51, 0), one(0x51, 8)] == [header(30), header(30), header(90), header(90)]
        && (0..32).all(|first| {
            let file = with_version(&file, first, |section| section[0] == 0x50);
            (0..32).all(|second| {
                let file = with_version(&file, second, |section| section[0] == 0x51);
                said(&file) == Ok(versions(&[first, second]))
            })
        })
}
