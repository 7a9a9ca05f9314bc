//! The manual's tables of Plan's counts and of a section's fields, each under its heading, once calls have shown them.

use crate::build_details::file_of;
use crate::chirdaluko::{check, crc32, plan, Caller, Pools, ReadRefusal, Record};
use crate::edit_details::NO_POOLS;
use crate::inputs::{chain, event, numbers};
use crate::lines::table;
use crate::schedule::BASE_DAY;
use crate::CALLERS;

const COUNTS: [[&str; 3]; 4] = [
    ["0", "", "outside its table's range: no section"],
    ["1 to 8", "", "so many sections; 1 also for a segment without events"],
    ["254", "EIT_PLAN_UNSOUND", "the list is unsound: every count is 254"],
    ["255", "EIT_PLAN_UNPACKABLE", "Build says 10"],
];

const FIELDS: [[&str; 4]; 15] = [
    ["0", "1", "table_id", "0x50 + segment index ÷ 32"],
    ["1", "2", "bits 1111, section_length", "bytes behind these two: 15 to 4,093, for cable to 1,021"],
    ["3", "2", "service_id", "any"],
    ["5", "1", "bits 11, version, current_next", "version 0 to 31, the table's; current_next 1"],
    ["6", "1", "section_number", "8 × segment, and up to 7 more"],
    ["7", "1", "last_section_number", "the last section_number of the table"],
    ["8", "2", "transport_stream_id", "any"],
    ["10", "2", "original_network_id", "any"],
    ["12", "1", "segment_last_section_number", "the last section_number of the segment"],
    ["13", "1", "last_table_id", "the last table_id of the file"],
    ["14", "2", "event_id", "different in every event of the file"],
    ["16", "2", "start_time, date", "a Modified Julian Date, from the base day on"],
    ["18", "3", "start_time, time", "UTC, six BCD digits"],
    ["21", "3", "duration", "six BCD digits, 00:00:01 to 99:59:59"],
    ["24", "2", "running_status, free_CA_mode, chain length", "running_status 0, or 5 for off air"],
];

pub fn print() {
    for caller in CALLERS {
        counts_are_so(caller);
        fields_are_so(caller);
        durations(caller);
    }
    table("### 5. Plan: `eit_plan`", &COUNTS);
    table("## The file", &FIELDS);
}

/// A segment without events, one of eight sections, one of one; then one of nine; then an unsound list.
fn counts_are_so(caller: Caller) {
    let day = chain(caller.chain_max());
    let pools = Pools { day: &day, series: &[] };
    let large = |place| Record { chain_length: day.len() as u32, ..event(place, 10_800 + 60 * place) };
    let counts = |records: &[Record]| {
        let mut counts = [0xA5; 512];
        plan(caller, &numbers(records), records.len(), pools, &mut counts);
        counts
    };
    let mut records: Vec<_> = (0..8).map(large).chain([event(100, 21_600)]).collect();
    let packable = counts(&records);
    assert!(packable[..3] == [1, 8, 1] && packable[3..] == [0; 509]);
    records.insert(8, large(8));
    assert_eq!(counts(&records)[..4], [1, 255, 1, 0]);
    records.push(event(100, 30_000));
    assert_eq!(counts(&records), [254; 512]);
}

/// What check says of a file of one event, with a byte changed, and the CRC_32 made right.
fn with(caller: Caller, place: usize, byte: u8) -> Result<usize, ReadRefusal> {
    let mut file = file_of(caller, &[event(1, 0)], NO_POOLS);
    file[place] = byte;
    let crc = crc32(&file[..26]).to_be_bytes();
    file[26..].copy_from_slice(&crc);
    check(caller, &file, BASE_DAY).map(|reading| reading.count)
}

fn fields_are_so(caller: Caller) {
    let with = |place, byte| with(caller, place, byte);
    let frame = Err(ReadRefusal::Frame { offset: 0 });
    let header = Err(ReadRefusal::Header { offset: 0 });
    let event_loop = Err(ReadRefusal::EventLoop { offset: 0 });
    for byte in 0..=255 {
        assert_eq!(with(0, byte) == frame, !(0x50..=0x5F).contains(&byte));
        assert_eq!(with(5, byte), if byte & 0xC1 == 0xC1 { Ok(1) } else { header });
        for place in [3, 4, 8, 9, 10, 11, 14, 15] {
            assert_eq!(with(place, byte), Ok(1));
        }
    }
    for bits in 0..16 {
        assert_eq!(with(1, bits << 4), if bits == 0b1111 { Ok(1) } else { header });
    }
    for running_status in 0..8 {
        let may_be = running_status == 0 || running_status == 5;
        assert_eq!(with(24, running_status << 5), if may_be { Ok(1) } else { event_loop });
    }
}

/// The shortest and the longest; the file of a minute with no minute, and with 5A of them.
fn durations(caller: Caller) {
    for (duration, digits) in [(1, [0x00, 0x00, 0x01]), (359_999, [0x99, 0x59, 0x59])] {
        let file = file_of(caller, &[Record { duration, ..event(1, 0) }], NO_POOLS);
        assert_eq!((&file[21..24], check(caller, &file, BASE_DAY).is_ok()), (&digits[..], true));
    }
    for minutes in [0x00, 0x5A] {
        assert_eq!(with(caller, 22, minutes), Err(ReadRefusal::EventLoop { offset: 0 }));
    }
}
