//! An evening of one service, in Rust: edits an event list, plans it, builds its file, checks the file, reads it back,
//! prints where its sections stand, and writes the file to the path that is its argument. Then a title changes, and it
//! rebuilds the file; at midnight it rolls the list, and rebuilds the file again. README.md, "How to link", has the
//! commands; evening.cuts is what it prints.

// A part of it is needed here.
#[allow(dead_code)]
#[path = "../bindings/rust/src/lib.rs"]
mod chirdaluko;

use chirdaluko::{Caller, Identity, Planned, Pools, Previous, Record, Rolled};
use chirdaluko::{NUMBERS_MAX, RECORD, SEGMENTS, TABLES};
use std::error::Error;

/// Whom every call serves.
const CALLER: Caller = Caller::Broadcast;
/// 1993-10-13. Starts count from its midnight UTC: a local time has to be turned into UTC first.
const BASE_DAY: u32 = 49_273;
/// That of the first file; the versions of later ones follow from the file before.
const IDENTITY: Identity =
    Identity { service_id: 1, transport_stream_id: 2, original_network_id: 3, versions: [0; TABLES] };

/// A short_event_descriptor (EN 300 468, 6.2): language, the name's length, the name, and no text.
fn short_event(name: &str) -> Vec<u8> {
    let length = name.len() as u8;
    [&[0x4D, 5 + length], "eng".as_bytes(), &[length], name.as_bytes(), &[0]].concat()
}

/// A PUT of a programme whose name goes to this pool.
fn put(pool: &mut Vec<u8>, id: u16, start: u32, duration: u32, marks: u32, name: &str) -> Vec<u8> {
    let offset = pool.len() as u32;
    let chain = short_event(name);
    pool.extend(&chain);
    let length = chain.len() as u16;
    [
        &[0x01][..],
        &id.to_be_bytes(),
        &start.to_be_bytes(),
        &duration.to_be_bytes(),
        &[marks as u8],
        &offset.to_be_bytes(),
        &length.to_be_bytes(),
    ]
    .concat()
}

fn seconds(hours: u32, minutes: u32) -> u32 {
    3_600 * hours + 60 * minutes
}

/// The script; its descriptors go to the pools.
fn script(day: &mut Vec<u8>, series: &mut Vec<u8>) -> Vec<u8> {
    [
        put(series, 1, seconds(17, 0), seconds(0, 30), Record::SERIES_POOL, "The Lighthouse"),
        put(day, 2, seconds(17, 30), seconds(0, 30), 0, "Regional magazine"),
        put(day, 3, seconds(18, 0), seconds(1, 0), 0, "Quiz of the week"),
        put(series, 4, seconds(19, 0), seconds(0, 15), Record::SERIES_POOL, "News"),
        put(day, 5, seconds(19, 15), seconds(1, 45), Record::FREE_CA, "The Night Ferry"),
        put(day, 6, seconds(24, 0), seconds(0, 30), 0, "Late news"),
        put(day, 7, seconds(21, 30), seconds(1, 30), 0, "Concert from Utrecht"),
        put(day, 8, seconds(23, 0), seconds(1, 0), 0, "Late film"),
        // MOVE: the late news are not to wait for midnight: they begin when the film is over. A second earlier is an
        // overlap.
        [&[0x03, 0, 6][..], &seconds(21, 0).to_be_bytes()].concat(),
        // WITHDRAW the late film; UNDO: it is shown after all.
        vec![0x02, 0, 8, 0x04],
    ]
    .concat()
}

/// The late film has another title: its programme is withdrawn, and put again. Behind it, after midnight, comes one
/// more.
fn change(day: &mut Vec<u8>) -> Vec<u8> {
    [
        vec![0x02, 0, 8],
        put(day, 8, seconds(23, 0), seconds(1, 0), 0, "The Last Tram"),
        put(day, 9, seconds(24, 0), seconds(0, 45), 0, "Night talk"),
    ]
    .concat()
}

/// A line for each section of a file that check accepted. A record's descriptors stand with their event, even if there
/// are none.
fn print_cuts(file: &[u8], records: &[u32]) {
    println!("offset table section events");
    let mut offset = 0;
    while offset < file.len() {
        let section_length = u16::from_be_bytes([file[offset + 1] & 0x0F, file[offset + 2]]);
        let next = offset + 3 + usize::from(section_length);
        let events = records.chunks(RECORD).filter(|record| (offset..next).contains(&(record[4] as usize))).count();
        println!("{offset} {} {} {events}", file[offset], file[offset + 6]);
        offset = next;
    }
}

fn main() -> Result<(), Box<dyn Error>> {
    let (mut day, mut series) = (Vec::new(), Vec::new());
    let script = script(&mut day, &mut series);
    let pools = Pools { day: &day, series: &series };
    let mut list = [0; NUMBERS_MAX];
    let count = chirdaluko::edit(CALLER, &mut list, 0, pools, &script)?;
    println!("edit {count}");

    let mut counts = [0; SEGMENTS];
    chirdaluko::plan(CALLER, &list, count, pools, &mut counts);
    let sections = |count| match Planned::of(count) {
        Planned::Sections(sections) => usize::from(sections),
        Planned::Outside | Planned::Unsound | Planned::Unpackable => 0,
    };
    println!("plan {}", counts.iter().copied().map(sections).sum::<usize>());

    let mut out = [0; 65_536];
    let length = chirdaluko::build(CALLER, &list, count, pools, BASE_DAY, IDENTITY, &mut out)?;
    println!("build {length}");
    let file = &out[..length];

    println!("check {}", chirdaluko::check(CALLER, file, BASE_DAY)?.count);
    let mut records = [0; NUMBERS_MAX];
    let reading = chirdaluko::read(CALLER, file, BASE_DAY, &mut records)?;
    let Identity { service_id, transport_stream_id, original_network_id, versions } = reading.identity;
    println!("read {}", reading.count);
    print!("service {service_id} stream {transport_stream_id} network {original_network_id} ");
    println!("version {}", versions[0]);
    print_cuts(file, &records[..RECORD * reading.count]);
    std::fs::write(std::env::args().nth(1).ok_or("the argument is the path of the file")?, file)?;

    let script = change(&mut day);
    let pools = Pools { day: &day, series: &series };
    let count = chirdaluko::edit(CALLER, &mut list, count, pools, &script)?;
    println!("edit {count}");
    // The file on air is the previous one. The table has changed, and so has its version.
    let previous = Previous { file, base_day: BASE_DAY };
    let mut changed = [0; 65_536];
    let length = chirdaluko::rebuild(CALLER, previous, &list, count, pools, BASE_DAY, &mut changed)?;
    println!("rebuild {length}");
    let reading = chirdaluko::check(CALLER, &changed[..length], BASE_DAY)?;
    println!("check {}", reading.count);
    println!("version {}", reading.identity.versions[0]);

    // Midnight: the evening's programmes leave. What is left counts from the base day that roll returns.
    let Rolled { count, base_day } = chirdaluko::roll(CALLER, &mut list, count, pools, BASE_DAY)?;
    println!("roll {count}");
    // The file on air is of the old base day. It is in the second buffer by now, so that the first one is free.
    let previous = Previous { file: &changed[..length], base_day: BASE_DAY };
    let length = chirdaluko::rebuild(CALLER, previous, &list, count, pools, base_day, &mut out)?;
    println!("rebuild {length}");
    let reading = chirdaluko::check(CALLER, &out[..length], base_day)?;
    println!("check {}", reading.count);
    println!("base day {base_day} version {}", reading.identity.versions[0]);
    Ok(())
}
