//! What to do where events overlap, each a sentence and the calls that show it, for both callers.

use crate::chirdaluko::{check, edit, place, plan, read, Caller, EditRefusal, Place, ReadRefusal, Record};
use crate::chirdaluko::{RECORD, SEGMENTS};
use crate::details::{self, Detail};
use crate::edit_details::NO_POOLS;
use crate::inputs::{event, numbers, put, shift, withdraw};
use crate::schedule::BASE_DAY;
use crate::sections::{self, section};

const ALL: [Detail; 6] = [
    (
        "**Which event is in the way?** Ask `eit_place` for the new start, in the list that the refusal leaves. The \
         record before the place is in the way if its start + duration is above the new start, and so is each record \
         from the place on whose start is below the new start + duration. The moved event's own record does not count: \
         look at the next one on that side.",
        in_the_way,
    ),
    (
        "**A script**: WITHDRAW or MOVE the event in the way first, in the same script. Each edit is compared with \
         the list as the edits before it made it, so an event is withdrawn before the PUT of what replaces it.",
        removed_first,
    ),
    (
        "**Two events that are to change places** go by way of a free time: MOVE one of them there, the other to its \
         new start, and then the first to its own. Behind the end of the last event all is free, up to 5,529,599.",
        exchanged,
    ),
    (
        "**Events in a row that are all to begin later** are moved from the last one on; if they are to begin earlier, \
         from the first one on.",
        shifted,
    ),
    (
        "**A list** with overlap, as the library could make it before version 4, is refused whole with 12, so that \
         Edit cannot mend it. Find its record as 12 says: it begins before the one before it ends. The buffer is \
         yours: give the one before it the difference of the two starts as its duration (its third number), and look \
         for the next. Or make the list anew from its script: 30 finds the PUT or MOVE.",
        list_mended,
    ),
    (
        "**A file** with overlap, whoever made it, is refused with 24 at the section of the later event, and nothing \
         of it is read: compare start and duration of the last event before that section, and of those in it. Its \
         maker has to build it anew, from a list without overlap.",
        file_refused,
    ),
];

pub fn print() {
    details::print_under("### Overlap", &ALL);
}

/// Three events: 100 to 160, 160 to 220, 300 to 360.
const HELD: [(u32, u32); 3] = [(1, 100), (2, 160), (3, 300)];

fn held() -> Vec<Record> {
    HELD.iter().map(|&(id, start)| event(id, start)).collect()
}

/// The number that Edit says to these commands on the three events, and the records that it leaves.
fn edited(caller: Caller, commands: &[Vec<u8>]) -> (u32, Vec<Record>) {
    let mut list = numbers(&held());
    list.resize(4 * RECORD, 0);
    let said = edit(caller, &mut list, HELD.len(), NO_POOLS, &commands.concat());
    let count = said.unwrap_or_else(EditRefusal::count);
    let record = |numbers: &[u32]| Record::from(<[u32; RECORD]>::try_from(numbers).expect("six numbers"));
    let records = list[..RECORD * count].chunks(RECORD).map(record).collect();
    (said.err().map_or(0, EditRefusal::number), records)
}

/// The records that an event would overlap, as the first sentence finds them.
fn overlapped(records: &[Record], wanted: Record) -> Vec<Record> {
    let Place { place, .. } = place(&numbers(records), records.len(), wanted.start);
    let (before, behind) = records.split_at(place);
    let is_other = |record: &&Record| record.id != wanted.id;
    let before = before.iter().rev().find(is_other).filter(|record| record.start + record.duration > wanted.start);
    let behind = behind.iter().filter(is_other).take_while(|record| record.start < wanted.start + wanted.duration);
    before.into_iter().chain(behind).copied().collect()
}

/// Every start around the three events, for a PUT of several durations and for a MOVE of each: 30 exactly if a record
/// is found, and once all that are found are withdrawn it succeeds.
fn in_the_way(caller: Caller) -> bool {
    let is_found = |wanted: Record, command: &[u8]| {
        let found = overlapped(&held(), wanted);
        let (said, left) = edited(caller, &[command.to_vec()]);
        let mut commands: Vec<_> = found.iter().map(|record| withdraw(record.id as u16)).collect();
        commands.push(command.to_vec());
        said == if found.is_empty() { 0 } else { 30 }
            && (said == 0 || left == held())
            && edited(caller, &commands).0 == 0
    };
    (0..400).all(|start| {
        [1, 39, 60, 80, 81, 1_000].iter().all(|&duration| {
            let wanted = Record { duration, ..event(9, start) };
            is_found(wanted, &put(wanted))
        }) && HELD.iter().all(|&(id, _)| is_found(event(id, start), &shift(id as u16, start)))
    })
}

fn removed_first(caller: Caller) -> bool {
    let film = put(Record { duration: 120, ..event(9, 100) });
    edited(caller, &[film.clone()]).0 == 30
        && edited(caller, &[film.clone(), withdraw(1), withdraw(2)]).0 == 30
        && edited(caller, &[withdraw(1), withdraw(2), film.clone()]).0 == 0
        && edited(caller, &[shift(2, 220), shift(1, 360), film]).0 == 0
}

/// The first and the last, by way of the time behind all; then the first two, of which the second is longer, by way of
/// the last start.
fn exchanged(caller: Caller) -> bool {
    let longer = Record { duration: 140, ..event(2, 160) };
    let mut list = numbers(&[event(1, 100), longer, event(3, 300)]);
    let script = [shift(2, 5_529_599), shift(1, 240), shift(2, 100)].concat();
    let said = edit(caller, &mut list, 3, NO_POOLS, &script);
    edited(caller, &[shift(1, 300)]).0 == 30
        && edited(caller, &[shift(3, 100)]).0 == 30
        && edited(caller, &[shift(1, 360), shift(3, 100), shift(1, 300)])
            == (0, vec![event(3, 100), event(2, 160), event(1, 300)])
        && (said, list) == (Ok(3), numbers(&[Record { start: 100, ..longer }, event(1, 240), event(3, 300)]))
}

/// The first two, by half their duration.
fn shifted(caller: Caller) -> bool {
    let later = [shift(2, 190), shift(1, 130)];
    let earlier = [shift(1, 70), shift(2, 130)];
    let backwards = |moves: &[Vec<u8>; 2]| [moves[1].clone(), moves[0].clone()];
    edited(caller, &later) == (0, vec![event(1, 130), event(2, 190), event(3, 300)])
        && edited(caller, &earlier) == (0, vec![event(1, 70), event(2, 130), event(3, 300)])
        && edited(caller, &backwards(&later)).0 == 30
        && edited(caller, &backwards(&earlier)).0 == 30
}

/// Five events, of which the first reaches over two others, and the fourth a second into the last.
fn list_mended(caller: Caller) -> bool {
    let lasting = |id, start, duration| Record { duration, ..event(id, start) };
    let mut records = [lasting(1, 0, 400), event(2, 100), event(3, 200), lasting(4, 500, 101), event(5, 600)];
    let said = |records: &[Record]| {
        let mut list = numbers(records);
        edit(caller, &mut list, records.len(), NO_POOLS, &withdraw(5)).map_err(EditRefusal::number)
    };
    let at_fault = |records: &[Record]| {
        (1..=records.len()).find(|&count| {
            let mut counts = [0; SEGMENTS];
            plan(caller, &numbers(records), count, NO_POOLS, &mut counts);
            counts == [254; SEGMENTS]
        })
    };
    let refused = said(&records);
    let script: Vec<_> = records.iter().flat_map(|&record| put(record)).collect();
    let anew = edit(caller, &mut [0; 5 * RECORD], 0, NO_POOLS, &script);
    let mut found = Vec::new();
    while let Some(count) = at_fault(&records) {
        let [before, fault] = [count - 2, count - 1];
        found.push(records[fault].id);
        records[before].duration = records[fault].start - records[before].start;
    }
    let mended = [lasting(1, 0, 100), event(2, 100), event(3, 200), lasting(4, 500, 100), event(5, 600)];
    refused == Err(12)
        && (found == [2, 5] && records == mended && said(&records) == Ok(4))
        && anew == Err(EditRefusal::Overlap { offset: 18, count: 1 })
}

/// Two events in a section, in two of a segment, and in two segments with one between them; the first ends when the
/// second begins, and a second later.
fn file_refused(caller: Caller) -> bool {
    let first = |hours, seconds| {
        let mut event = sections::event(1, 0x00, 0x00);
        event[7..10].copy_from_slice(&[hours, 0x00, seconds]);
        event
    };
    let (soon, late) = (sections::event(2, 0x01, 0x00), sections::event(2, 0x06, 0x00));
    let one = |seconds| section([0x50, 0, 0, 0, 0x50], &[first(0x01, seconds), soon.clone()]);
    let two = |seconds| {
        [section([0x50, 0, 1, 1, 0x50], &[first(0x01, seconds)]), section([0x50, 1, 1, 1, 0x50], &[soon.clone()])]
            .concat()
    };
    let apart = |seconds| {
        let front = [section([0x50, 0, 0, 16, 0x50], &[first(0x06, seconds)]), section([0x50, 8, 8, 16, 0x50], &[])];
        [front.concat(), section([0x50, 16, 16, 16, 0x50], &[late.clone()])].concat()
    };
    let said = |file: &[u8]| {
        let mut records = [77; 2 * RECORD];
        let said = read(caller, file, BASE_DAY, &mut records);
        let is_same = check(caller, file, BASE_DAY) == said && (said.is_ok() || records == [77; 2 * RECORD]);
        is_same.then(|| said.map(|reading| reading.count))
    };
    let at = |offset| Some(Err(ReadRefusal::EventLoop { offset }));
    [one(0x00), two(0x00), apart(0x00)].iter().all(|file| said(file) == Some(Ok(2)))
        && said(&one(0x01)) == at(0)
        && said(&two(0x01)) == at(30)
        && said(&apart(0x01)) == at(48)
}
