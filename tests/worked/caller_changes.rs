//! What to do where a list or file of one caller goes to the other, each a sentence and the calls that show it.

use crate::build_details::file_of;
use crate::callers::hourly;
use crate::chirdaluko::{build, check, edit, read, Caller, Pools, Record, NUMBERS_MAX, RECORD};
use crate::edit_details::NO_POOLS;
use crate::inputs::{chain, event, numbers, row, withdraw};
use crate::schedule::{BASE_DAY, IDENTITY};
use crate::sections;
use Caller::{Broadcast, Cable};

/// A sentence, and whether it is so.
const ALL: [(&str, fn() -> bool); 4] = [
    (
        "**A list** for broadcast with over 256 events is 12 for cable, also to Edit: \
         withdraw events by Edit for broadcast first.",
        list_too_long,
    ),
    (
        "**A list** that Build packs for broadcast can be 10 for cable, by an event with over 994 bytes of descriptors \
         or by a ninth section: shorten descriptors, or move events.",
        unpackable,
    ),
    (
        "**A file** for broadcast can be 20 or 26 for cable: Read it for broadcast, withdraw events over 256 by Edit \
         for broadcast, and Build the list for cable.",
        file_too_long,
    ),
    (
        "**A file** that is accepted for cable is accepted for broadcast, too, so Build for cable what both are to \
         take. Build for broadcast can pack its events into fewer sections, and a file does not show for whom it was \
         made.",
        accepted_by_both,
    ),
];

pub fn print() {
    for (sentence, is_so) in ALL {
        assert!(is_so(), "not so: {sentence}");
        println!("- {sentence}");
    }
}

/// The records of a file, whose day pool is the file.
fn read_back(caller: Caller, file: &[u8]) -> Vec<u32> {
    let mut records = vec![0; NUMBERS_MAX];
    let count = read(caller, file, BASE_DAY, &mut records).expect("an accepted file").count;
    records.truncate(RECORD * count);
    records
}

/// Build's file of records with this day pool.
fn built(caller: Caller, records: &[u32], day: &[u8]) -> Result<Vec<u8>, u32> {
    let mut out = vec![0; 65_536];
    let pools = Pools { day, series: &[] };
    let length = build(caller, records, records.len() / RECORD, pools, BASE_DAY, IDENTITY, &mut out);
    out.truncate(length.map_err(|refusal| refusal.number())?);
    Ok(out)
}

fn said(caller: Caller, file: &[u8]) -> Result<usize, u32> {
    check(caller, file, BASE_DAY).map(|reading| reading.count).map_err(|refusal| refusal.number())
}

fn list_too_long() -> bool {
    let mut list = numbers(&hourly(257));
    let mut edited = |caller, count, script: &[u8]| {
        edit(caller, &mut list, count, NO_POOLS, script).map_err(|refusal| refusal.number())
    };
    edited(Cable, 257, &withdraw(256)) == Err(12)
        && edited(Broadcast, 257, &withdraw(256)) == Ok(256)
        && edited(Cable, 256, &withdraw(255)) == Ok(255)
}

/// One event with 995 bytes of descriptors, and with 994; nine events with 994 in a segment, and eight.
fn unpackable() -> bool {
    let refused = |caller, count, length: u32| {
        let records: Vec<_> = (0..count).map(|id| Record { chain_length: length, ..event(id, 60 * id) }).collect();
        built(caller, &numbers(&records), &chain(length as usize)).err()
    };
    refused(Broadcast, 1, 995).is_none()
        && refused(Cable, 1, 995) == Some(10)
        && refused(Cable, 1, 994).is_none()
        && refused(Broadcast, 9, 994).is_none()
        && refused(Cable, 9, 994) == Some(10)
        && refused(Cable, 8, 994).is_none()
}

/// 84 events in a segment, and 257 events, of which one is withdrawn.
fn file_too_long() -> bool {
    let long = file_of(Broadcast, &row(84), NO_POOLS);
    let many = file_of(Broadcast, &hourly(257), NO_POOLS);
    let mut records = read_back(Broadcast, &many);
    let withdrawn = edit(Broadcast, &mut records, 257, Pools { day: &many, series: &[] }, &withdraw(256));
    said(Cable, &long) == Err(20)
        && built(Cable, &read_back(Broadcast, &long), &long) == Ok(file_of(Cable, &row(84), NO_POOLS))
        && said(Cable, &many) == Err(26)
        && withdrawn == Ok(256)
        && built(Cable, &records[..RECORD * 256], &many) == Ok(file_of(Cable, &hourly(256), NO_POOLS))
}

fn accepted_by_both() -> bool {
    let file = file_of(Cable, &row(84), NO_POOLS);
    let records = read_back(Broadcast, &file);
    let sections = |file: &[u8]| sections::of(file).len();
    said(Broadcast, &file) == Ok(84)
        && records == read_back(Cable, &file)
        && built(Broadcast, &records, &file).map(|file| sections(&file)) == Ok(1)
        && built(Cable, &records, &file) == Ok(file.clone())
        && sections(&file) == 2
}
