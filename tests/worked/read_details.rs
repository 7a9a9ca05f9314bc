//! Details of Read and check.

use crate::build_details::{file_from, file_of};
use crate::chirdaluko::{build, check, crc32, read, Caller, Pools, ReadRefusal, Reading, Record};
use crate::chirdaluko::{BASE_DAY_MAX, WINDOW_SECONDS};
use crate::details::Detail;
use crate::edit_details::NO_POOLS;
use crate::inputs::{chain, event};
use crate::schedule::BASE_DAY;
use crate::sections::{self, section};

pub const ALL: [Detail; 10] = [
    ("Read returns as offset of an event without descriptors the place behind the event's 12 bytes.", empty_chain),
    (
        "Read with another legal base day than Build's says 24 if the file has an event, \
         and accepts it if it has none.",
        base_days,
    ),
    (
        "A file's base day is its first event's date − (32 × (table_id − 0x50) + section_number ÷ 8) ÷ 8, \
         each ÷ rounded down.",
        base_day_found,
    ),
    (
        "Read compares each event with the one before it, in whatever section, segment or table that stands: \
         overlap is 24 at the later one's section.",
        overlap,
    ),
    ("Read accepts segments cut early, empty segments behind the last event, and a later last_table_id.", not_asked),
    ("Read does not accept a file that leaves an empty segment out: 23 at the section behind the gap.", left_out),
    (
        "A truncated section is 20, and so is one byte behind the last section; \
         a file that ends between two sections is 25.",
        ends,
    ),
    (
        "A section longer than the caller takes is 20, whatever its CRC_32 is; up to that length a wrong CRC_32 is 21.",
        length_first,
    ),
    ("A wrong fixed bit in a section whose CRC_32 is wrong, too, is 21.", crc_first),
    (
        "Build of the records and the identity that Read returned, with the file as day pool, \
         is the file again if Build made it.",
        built_again,
    ),
];

fn empty_chain(caller: Caller) -> bool {
    let mut records = [0; 6];
    let file = file_of(caller, &[event(1, 0)], NO_POOLS);
    read(caller, &file, BASE_DAY, &mut records).is_ok() && records[4..] == [14 + 12, 0]
}

fn base_days(caller: Caller) -> bool {
    let (one, none) = (file_of(caller, &[event(1, 0)], NO_POOLS), file_of(caller, &[], NO_POOLS));
    (0..=65_472).all(|base_day| {
        let said = check(caller, &one, base_day);
        let is_so = if base_day == BASE_DAY { said.is_ok() } else { said == Err(ReadRefusal::EventLoop { offset: 0 }) };
        is_so && check(caller, &none, base_day).is_ok()
    })
}

/// The first event in the first and the last second of every segment, under the first, the last and another base day;
/// a second event stands in the last segment.
fn base_day_found(caller: Caller) -> bool {
    let last = event(2, WINDOW_SECONDS - 1);
    let found = |file: &[u8]| {
        let (_, section) = sections::of(file).into_iter().find(|(_, section)| section.len() > 18).expect("an event");
        let date = u32::from(u16::from_be_bytes([section[16], section[17]]));
        date - (32 * (u32::from(section[0]) - 0x50) + u32::from(section[6]) / 8) / 8
    };
    (0..WINDOW_SECONDS).step_by(10_800).flat_map(|start| [start, start + 10_799]).all(|start| {
        let records = [event(1, start), last];
        let records = if start < last.start { &records[..] } else { &records[..1] };
        [0, BASE_DAY, BASE_DAY_MAX].iter().all(|&base_day| {
            let file = file_from(caller, base_day, records, NO_POOLS);
            found(&file) == base_day && check(caller, &file, base_day).is_ok()
        })
    })
}

/// Two events that touch: over the end of a segment, over a segment without events, over the end of a table, and over
/// all of one; then with a second more of the first. Behind start and duration stand the offsets of their sections, of
/// which the first has 30 bytes.
fn overlap(caller: Caller) -> bool {
    [(10_740, 60, 0, 30), (0, 21_600, 0, 48), (345_540, 60, 558, 588), (0, 345_600, 0, 30)].iter().all(
        |&(start, duration, first, second)| {
            let records = [Record { duration, ..event(1, start) }, event(2, start + duration)];
            let mut file = file_of(caller, &records, NO_POOLS);
            let touching = check(caller, &file, BASE_DAY);
            file[first + 23] = 0x01;
            let crc = crc32(&file[first..first + 26]).to_be_bytes();
            file[first + 26..first + 30].copy_from_slice(&crc);
            touching.is_ok() && check(caller, &file, BASE_DAY) == Err(ReadRefusal::EventLoop { offset: second })
        },
    )
}

fn not_asked(caller: Caller) -> bool {
    let [one, two] = [sections::event(1, 0x00, 0x10), sections::event(2, 0x01, 0x00)];
    let early = [section([0x50, 0, 1, 1, 0x50], &[one.clone()]), section([0x50, 1, 1, 1, 0x50], &[two])];
    let behind = [section([0x50, 0, 0, 8, 0x50], &[one.clone()]), section([0x50, 8, 8, 8, 0x50], &[])];
    let later = [section([0x50, 0, 0, 0, 0x51], &[one]), section([0x51, 0, 0, 0, 0x51], &[])];
    [early, behind, later].iter().all(|file| check(caller, &file.concat(), BASE_DAY).is_ok())
}

fn left_out(caller: Caller) -> bool {
    let first = section([0x50, 0, 0, 16, 0x50], &[sections::event(1, 0x00, 0x10)]);
    let third = section([0x50, 16, 16, 16, 0x50], &[sections::event(2, 0x06, 0x00)]);
    let second = section([0x50, 8, 8, 16, 0x50], &[]);
    let said = check(caller, &[first.clone(), third.clone()].concat(), BASE_DAY);
    said == Err(ReadRefusal::Numbering { offset: first.len() })
        && check(caller, &[first, second, third].concat(), BASE_DAY).is_ok()
}

fn ends(caller: Caller) -> bool {
    let file = file_of(caller, &[event(1, 10_800)], NO_POOLS);
    let said = |file: &[u8]| check(caller, file, BASE_DAY).map(|_| ());
    said(&file[..file.len() - 1]) == Err(ReadRefusal::Frame { offset: 18 })
        && said(&[&file[..], &[0x50]].concat()) == Err(ReadRefusal::Frame { offset: file.len() })
        && said(&file[..18]) == Err(ReadRefusal::EarlyEnd { file_length: 18 })
}

fn length_first(caller: Caller) -> bool {
    let of_length = |section_max: usize| {
        let [high, low] = (0xF000 | section_max as u16 - 3).to_be_bytes();
        let mut file = vec![0; section_max];
        file[..3].copy_from_slice(&[0x50, high, low]);
        check(caller, &file, BASE_DAY)
    };
    of_length(caller.section_max()) == Err(ReadRefusal::Crc { offset: 0 })
        && of_length(caller.section_max() + 1) == Err(ReadRefusal::Frame { offset: 0 })
}

fn crc_first(caller: Caller) -> bool {
    let mut file = file_of(caller, &[], NO_POOLS);
    file[5] ^= 1;
    let damaged = check(caller, &file, BASE_DAY);
    let crc = crc32(&file[..14]).to_be_bytes();
    file[14..].copy_from_slice(&crc);
    let sealed = check(caller, &file, BASE_DAY);
    damaged == Err(ReadRefusal::Crc { offset: 0 }) && sealed == Err(ReadRefusal::Header { offset: 0 })
}

fn built_again(caller: Caller) -> bool {
    let day = chain(caller.section_max() / 2);
    let large = |id, start| Record { chain_length: day.len() as u32, ..event(id, start) };
    let file = file_of(caller, &[large(1, 0), large(2, 60), event(3, 86_400)], Pools { day: &day, series: &[] });
    let mut records = [0; 18];
    let Reading { count, identity } = read(caller, &file, BASE_DAY, &mut records).expect("a file of Build's");
    let mut again = vec![0; file.len()];
    let said = build(caller, &records, count, Pools { day: &file, series: &[] }, BASE_DAY, identity, &mut again);
    said == Ok(file.len()) && again == file
}
