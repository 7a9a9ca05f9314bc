//! Read's and check's refusals of whole files and of their sections: files that Build made, damaged, and given a right
//! CRC_32 again where the damage is not to it. Those of events are in events.rs.

use crate::chirdaluko::{build, check, crc32, read, Caller, Identity, Pools, Previous, ReadRefusal, Reading, Record};
use crate::inputs::{event, numbers};
use crate::rebuilds;
use crate::{Rows, ALL, EVENTS, FILE, SECTION, ZERO};
use std::ops::Range;

pub const BASE_DAY: u32 = 49_273;

/// The file's identity; tables behind 0x51 have versions, too, and no file here has such a table.
pub const IDENTITY: Identity = Identity {
    service_id: 1,
    transport_stream_id: 2,
    original_network_id: 3,
    versions: [4, 5, 6, 7, 8, 9, 10, 11, 12, 13, 14, 15, 16, 17, 18, 19],
};

/// The sections of `three`, each of 30 bytes: table 0x50 section 0, table 0x51 sections 0 and 8.
pub const SECOND: Range<usize> = 30..60;
pub const THIRD: usize = 60;
const END: usize = 90;

pub fn run(rows: &mut Rows) {
    let file = three(rows.caller);
    assert_eq!(file.len(), END);
    frames(rows, &file);
    headers(rows, &file);
    numbering(rows, &file);
    ends(rows, &file);
}

/// A file of three events, each in a section of its own.
pub fn three(caller: Caller) -> Vec<u8> {
    built(caller, &[event(1, 100), event(2, 345_600), event(3, 356_400)], &[])
}

pub fn built(caller: Caller, records: &[Record], day: &[u8]) -> Vec<u8> {
    let pools = Pools { day, series: &[] };
    let mut out = vec![0; 65_536];
    let length = build(caller, &numbers(records), records.len(), pools, BASE_DAY, IDENTITY, &mut out);
    out.truncate(length.expect("a sound list"));
    out
}

/// What Read returns of a file of `built` with so many events and tables.
pub fn accepted(count: usize, tables: usize) -> Result<Reading, ReadRefusal> {
    let mut identity = IDENTITY;
    identity.versions[tables..].fill(0);
    Ok(Reading { count, identity })
}

/// Read and check both say it, and the record buffer, long enough for three events, stays. Rebuild says it of the
/// previous file.
pub fn refused(rows: &mut Rows, file: &[u8], base_day: u32, refusal: ReadRefusal, returned: &'static str) {
    rebuilds::previous_refused(rows, Previous { file, base_day }, refusal, returned);
    let mut records = [77; 18];
    assert_eq!(read(rows.caller, file, base_day, &mut records), Err(refusal));
    assert_eq!(records, [77; 18]);
    assert_eq!(check(rows.caller, file, base_day), Err(refusal));
    rows.add("Read", refusal.number(), returned, ALL);
    rows.add("check", refusal.number(), returned, ALL);
}

/// The file with a section changed, and its CRC_32 made right.
pub fn changed(file: &[u8], section: Range<usize>, change: impl FnOnce(&mut [u8])) -> Vec<u8> {
    let mut file = file.to_vec();
    change(&mut file[section.clone()]);
    seal(&mut file[section]);
    file
}

pub fn seal(section: &mut [u8]) {
    let (front, crc) = section.split_at_mut(section.len() - 4);
    crc.copy_from_slice(&crc32(front).to_be_bytes());
}

fn frames(rows: &mut Rows, file: &[u8]) {
    let longest = rows.caller.section_max() as u16 - 3;
    refused(rows, file, 65_473, ReadRefusal::BaseDay, ZERO);
    let mut frame = |file: &[u8], offset| refused(rows, file, BASE_DAY, ReadRefusal::Frame { offset }, SECTION);
    frame(&file[..END - 1], THIRD);
    frame(&[file, &[0x50]].concat(), END);
    frame(&changed(file, SECOND, |section| section[0] = 0x4F), SECOND.start);
    frame(&changed(file, SECOND, |section| section[0] = 0x60), SECOND.start);
    // All of the section is there; within the limits it is looked at, and its CRC_32 is wrong.
    let of_length = |length: u16| {
        let [high, low] = (0xF000 | length).to_be_bytes();
        [&file[..SECOND.start], &[0x51, high, low], &[0; 4_096]].concat()
    };
    frame(&of_length(14), SECOND.start);
    frame(&of_length(longest + 1), SECOND.start);
    for length in [15, longest] {
        refused(rows, &of_length(length), BASE_DAY, ReadRefusal::Crc { offset: SECOND.start }, SECTION);
    }

    let mut damaged = file.to_vec();
    damaged[SECOND.end - 1] ^= 1;
    refused(rows, &damaged, BASE_DAY, ReadRefusal::Crc { offset: SECOND.start }, SECTION);
}

fn headers(rows: &mut Rows, file: &[u8]) {
    let mut header = |what: &'static str, place: usize, bytes: &[u8], offset: usize| {
        for &byte in bytes {
            let damaged = changed(file, offset..offset + 30, |section| section[place] = byte);
            refused(rows, &damaged, BASE_DAY, ReadRefusal::Header { offset }, SECTION);
        }
        if rows.headers.last() != Some(&what) {
            rows.headers.push(what);
        }
    };
    let without = |place: usize, bits: &[u8]| bits.iter().map(|bit| file[place] & !bit).collect::<Vec<_>>();
    header("one of the four bits before section_length is 0", 1, &without(1, &[0x80, 0x40, 0x20, 0x10]), 0);
    header("one of the two bits before version is 0", 5, &without(5, &[0x80, 0x40]), 0);
    header("current_next is 0", 5, &without(5, &[0x01]), 0);
    header("last_table_id is not 0x50 to 0x5F", 13, &[0x4F, 0x60], 0);
    header("last_table_id differs from the section before", 13, &[0x50, 0x52], SECOND.start);
    for place in [3, 4] {
        header("service_id differs from the section before", place, &[9], SECOND.start);
    }
    for place in [8, 9, 10, 11] {
        let what = "transport_stream_id or original_network_id differs from the section before";
        header(what, place, &[9], SECOND.start);
    }
    let others: Vec<_> = (0..32).filter(|&version| version != 5).map(|version| 0xC1 | version << 1).collect();
    header("version differs from an earlier section of its table", 5, &others, THIRD);
    versions(rows, file);
}

/// Another version of table 0x50 alone, and of both sections of table 0x51, is accepted. A section that comes back is
/// 22 with another version and 23 with its own.
fn versions(rows: &mut Rows, file: &[u8]) {
    for version in 0..32 {
        let with =
            |file: &[u8], section: Range<usize>| changed(file, section, |section| section[5] = 0xC1 | version << 1);
        let mut identity = accepted(3, 2).expect("a file").identity;
        identity.versions[0] = version;
        let first = with(file, 0..SECOND.start);
        assert_eq!(check(rows.caller, &first, BASE_DAY), Ok(Reading { count: 3, identity }));
        identity.versions[1] = version;
        let all = with(&with(&first, SECOND), THIRD..END);
        assert_eq!(check(rows.caller, &all, BASE_DAY), Ok(Reading { count: 3, identity }));

        for (section, own, offset) in [
            (0..SECOND.start, 4, THIRD),
            (SECOND, 5, THIRD),
            (0..SECOND.start, 4, END),
            (SECOND, 5, END),
            (THIRD..END, 5, END),
        ] {
            let again = with(&file[section], 0..30);
            let same = ReadRefusal::Numbering { offset };
            let refusal = if version == own { same } else { ReadRefusal::Header { offset } };
            refused(rows, &[&file[..offset], &again].concat(), BASE_DAY, refusal, SECTION);
        }
    }
}

fn numbering(rows: &mut Rows, file: &[u8]) {
    let mut numbering = |file: &[u8], offset| refused(rows, file, BASE_DAY, ReadRefusal::Numbering { offset }, SECTION);
    // The second section is missing; it is there twice; its table is past last_table_id.
    numbering(&[&file[..SECOND.start], &file[THIRD..]].concat(), SECOND.start);
    numbering(&[&file[..SECOND.end], &file[SECOND]].concat(), THIRD);
    let mut past = changed(file, 0..SECOND.start, |section| section[13] = 0x50);
    past = changed(&past, SECOND, |section| section[13] = 0x50);
    numbering(&past, SECOND.start);
}

fn ends(rows: &mut Rows, file: &[u8]) {
    let mut early = |file: &[u8]| {
        refused(rows, file, BASE_DAY, ReadRefusal::EarlyEnd { file_length: file.len() }, FILE);
    };
    early(&[]);
    early(&file[..SECOND.start]);
    early(&file[..THIRD]);

    // A buffer for three events is just long enough; check has none, and says nothing of it.
    let accepted = accepted(3, 2);
    let short = ReadRefusal::RecordsShort { events: 3 };
    let mut records = [77; 18];
    assert_eq!(read(rows.caller, file, BASE_DAY, &mut records[..17]), Err(short));
    assert_eq!(records, [77; 18]);
    assert_eq!(read(rows.caller, file, BASE_DAY, &mut records), accepted);
    assert_eq!(check(rows.caller, file, BASE_DAY), accepted);
    rows.add("Read", short.number(), EVENTS, ALL);
}
