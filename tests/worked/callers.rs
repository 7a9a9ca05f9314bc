//! The two callers: their sizes, once calls have shown them, and what the calls say by the caller.

use crate::build_details::file_of;
use crate::chirdaluko::{build, chain_room, check, edit, plan, BuildRefusal, Caller, Pools, Record};
use crate::chirdaluko::{NUMBERS_MAX, SEGMENTS};
use crate::edit_details::NO_POOLS;
use crate::inputs::{chain, event, numbers, put, row};
use crate::lines::{grouped, said, table};
use crate::schedule::{BASE_DAY, IDENTITY};
use crate::CALLERS;

pub fn print() {
    for caller in CALLERS {
        sizes_are_so(caller);
    }
    table("## Which caller", &sizes());
}

fn sizes() -> [[String; 4]; 6] {
    let row = |what: &str, size: fn(Caller) -> usize, name: &str| {
        let [broadcast, cable] = CALLERS.map(|caller| grouped(size(caller) as u32));
        [what.to_string(), broadcast, cable, name.to_string()]
    };
    [
        row("events in a list or file", Caller::events_max, "EIT_EVENTS_MAX"),
        row("bytes in a section", Caller::section_max, "EIT_SECTION_MAX"),
        row("section_length, from 15 to", |caller| caller.section_max() - 3, ""),
        row("bytes for events in a section", |caller| caller.section_max() - 18, ""),
        row("bytes of one event's descriptors that a section can hold", Caller::chain_max, "EIT_CHAIN_MAX"),
        row("bytes that hold every file", Caller::file_max, "EIT_FILE_MAX"),
    ]
}

/// As many events as the caller may have, and one more; descriptors that fill a section, and a byte more.
fn sizes_are_so(caller: Caller) {
    let most = caller.events_max();
    assert_ne!(first_count(caller, &row(most)), 254);
    assert_eq!(first_count(caller, &row(most + 1)), 254);

    let said = |length: usize| {
        let list = numbers(&[Record { chain_length: length as u32, ..event(1, 0) }]);
        let pools = Pools { day: &chain(length), series: &[] };
        build(caller, &list, 1, pools, BASE_DAY, IDENTITY, &mut [])
    };
    let needed = caller.section_max();
    assert_eq!(said(caller.chain_max()), Err(BuildRefusal::OutputShort { needed }));
    assert_eq!(said(caller.chain_max() + 1), Err(BuildRefusal::Unpackable { segment: 0 }));
}

/// A line for each call, with what it says by the caller.
pub fn lines() -> Vec<String> {
    let line = |call: &str, broadcast: &str, cable: &str| format!("{call:<49}{broadcast:<11}{cable}");
    let mut lines = vec![line("call", "broadcast", "cable")];
    let [broadcast, cable] = CALLERS.map(answers);
    for ((call, broadcast), (_, cable)) in broadcast.iter().zip(&cable) {
        lines.push(line(call, broadcast, cable));
    }
    lines
}

/// Lists and files that cable just takes, and those of one more. The files are built for broadcast.
fn answers(caller: Caller) -> Vec<(String, String)> {
    let mut answers = Vec::new();
    for count in [256, 257] {
        let records = hourly(count);
        let script: Vec<_> = records.iter().flat_map(|&record| put(record)).collect();
        let edited = said!(edit(caller, &mut [0; NUMBERS_MAX], 0, NO_POOLS, &script));
        let planned = first_count(caller, &records).to_string();
        answers.push((format!("Edit: {count} PUTs, an event each hour"), edited));
        answers.push((format!("Plan of the {count} events: the first count"), planned));
        answers.push((format!("Build of the {count} events"), built(caller, &records, NO_POOLS)));
        answers.push(("check of their file, built for broadcast".to_string(), checked(caller, &records, NO_POOLS)));
    }
    for count in [83, 84] {
        let planned = first_count(caller, &row(count)).to_string();
        answers.push((format!("Plan of {count} events in a segment: its count"), planned));
        let length = file_of(caller, &row(count), NO_POOLS).len().to_string();
        answers.push((format!("Build of {count} events in a segment: the length"), length));
    }
    for length in [994, 995] {
        let records = [Record { chain_length: length, ..event(1, 0) }];
        let day = chain(length as usize);
        let pools = Pools { day: &day, series: &[] };
        answers.push((format!("Build of an event with {length} descriptor bytes"), built(caller, &records, pools)));
        answers.push(("check of its file, built for broadcast".to_string(), checked(caller, &records, pools)));
    }
    let room = chain_room(caller, &[], 0, NO_POOLS, 0).expect("a sound list").expect("an empty segment");
    answers.push(("chain_room in a segment without events".to_string(), room.to_string()));
    answers
}

/// So many events, one in each hour, so three in a segment.
pub fn hourly(count: u32) -> Vec<Record> {
    (0..count).map(|place| event(place, 3_600 * place)).collect()
}

/// What Build says, with output enough.
fn built(caller: Caller, records: &[Record], pools: Pools) -> String {
    let mut out = [0; 65_536];
    said!(build(caller, &numbers(records), records.len(), pools, BASE_DAY, IDENTITY, &mut out))
}

/// What check says of their file for broadcast.
fn checked(caller: Caller, records: &[Record], pools: Pools) -> String {
    said!(check(caller, &file_of(Caller::Broadcast, records, pools), BASE_DAY))
}

/// Plan's count of segment 0, of events without descriptors.
fn first_count(caller: Caller, records: &[Record]) -> u8 {
    let mut counts = [0; SEGMENTS];
    plan(caller, &numbers(records), records.len(), NO_POOLS, &mut counts);
    counts[0]
}
