//! Files of one caller read by the other (02, W-206): accepted within its sizes; else 20 for the first section that is
//! longer than it takes, or 26 for the first with an event too many.

use super::built::built;
use super::comparison::{Comparison, RECORDS_MAX};
use super::file::{File, CRC};
use super::given::Given;
use super::layout::{rival, Layout};
use crate::lineup::Lineup;
use crate::other::{Caller, Lent, Sizes};
use crate::random::Random;
use std::collections::BTreeSet;

/// The lengths of chains, by segment and section.
type Chains = Vec<Vec<Vec<usize>>>;

pub fn run(comparison: &mut Comparison) -> Result<(), String> {
    let random = &mut comparison.groups.begin("callers");
    at_the_numbers(comparison, random)?;
    let other = comparison.caller.other();
    let mut seen = BTreeSet::new();
    for given in made_for(other, random) {
        let Some(file) = given.built() else {
            return Err(format!("a list that is made for {other} is unpackable"));
        };
        built_for_the_other(comparison, &given, &file)?;
        for file in [file, rival(random, &given)] {
            let (number, value) = wanted(comparison.caller.sizes(), &file);
            comparison.answers((number, value), &file.bytes(), file.base_day)?;
            seen.insert(number);
        }
    }
    let wanted = match comparison.caller {
        Caller::Broadcast => [0].into(),
        Caller::Cable => [0, 20, 26].into(),
    };
    (seen == wanted).then_some(()).ok_or_else(|| format!("{other}'s files are answered {seen:?}, and not {wanted:?}"))
}

/// Events of many kinds that are within this caller's sizes.
fn made_for(caller: Caller, random: &mut Random) -> Vec<Given> {
    let sizes = caller.sizes();
    let mut all: Vec<_> = (0..60).map(|_| Given::some(caller, random)).collect();
    for events in [1, 50, 255, 256, sizes.events / 2, sizes.events - 1, sizes.events] {
        // In many segments, so that sections are short, and in few, so that they are long.
        for in_segment in [4, 60, 300] {
            let segments: Vec<_> =
                (0..events.div_ceil(in_segment)).map(|k| (k, in_segment.min(events - in_segment * k))).collect();
            all.push(Given::short(caller, random, &segments));
        }
    }
    all
}

/// Number and value for a file that the other caller accepts.
fn wanted(sizes: Sizes, file: &File) -> (u32, usize) {
    let mut events = 0;
    for (place, section) in file.sections.iter().enumerate() {
        events += file.events_in(place).len();
        if section.len() > sizes.section {
            return (20, file.offset(place));
        }
        if events > sizes.events {
            return (26, file.offset(place));
        }
    }
    (0, events)
}

/// The library builds the file for the other caller; if this caller accepts it, it reads the events that were given,
/// and the other caller's Build makes the file again of what was read.
fn built_for_the_other(comparison: &mut Comparison, given: &Given, file: &File) -> Result<(), String> {
    let bytes = file.bytes();
    let (reading, records) = comparison.read(&bytes, file.base_day, RECORDS_MAX)?;
    let records = &records[..6 * reading.count];
    let again = Lent { list: records, count: reading.count, day: &bytes, series: &[] };
    let fault = if built(comparison, &given.lent(), given, given.identity, bytes.len()).as_ref() != Some(&bytes) {
        "Build made another file"
    } else if reading.number != 0 {
        return Ok(());
    } else if !given.is_carried(records, &bytes) || reading.identity != given.identity_in(file) {
        "Read returned other events, or another identity, than Build was given"
    } else if built(comparison, &again, given, reading.identity, bytes.len()).as_ref() != Some(&bytes) {
        "Build of what Read returned made another file"
    } else {
        return Ok(());
    };
    Err(comparison.describe(fault, &bytes, file.base_day, None))
}

/// Broadcast's files at the cable caller's numbers, and number and section of the cable caller's refusal. Broadcast
/// accepts them all.
fn at_the_numbers(comparison: &mut Comparison, random: &mut Random) -> Result<(), String> {
    let few = |events: usize| vec![0; events];
    let most = || vec![few(64); 4];
    let rows: [(Chains, Option<(u32, usize)>); 12] = [
        // Sections of 1,024 and 1,025 bytes, of 1,014 and 1,026 bytes, and of 4,096 bytes.
        (vec![vec![vec![994]]], None),
        (vec![vec![vec![995]]], Some((20, 0))),
        (vec![vec![few(83)]], None),
        (vec![vec![few(84)]], Some((20, 0))),
        (vec![vec![vec![4_066]]], Some((20, 0))),
        (vec![vec![vec![994], vec![994, 3]]], Some((20, 1))),
        // 256 events and 257: the last alone, with others, and in a segment of its own.
        (vec![most()], None),
        (vec![[most(), vec![few(1)]].concat()], Some((26, 4))),
        (vec![vec![few(64), few(64), few(64), few(65)]], Some((26, 3))),
        (vec![most(), vec![few(1)]], Some((26, 4))),
        // Event 257 in a long section, and before one.
        (vec![most(), vec![vec![995]]], Some((20, 4))),
        (vec![most(), vec![few(1), vec![995]]], Some((26, 4))),
    ];
    for (segments, refusal) in rows {
        let file = file_of(random, &segments);
        let refusal = refusal.filter(|_| comparison.caller == Caller::Cable);
        let Some((number, place)) = refusal else {
            comparison.accepted(&file)?;
            continue;
        };
        comparison.refused(number, place, &file)?;
        // CRC_32 is looked at behind the length, and before the events.
        let wrong = file.with_raw(place, |section| {
            let crc = section.len() - CRC;
            section[crc + random.below(CRC)] ^= random.bit(0, 7) as u8;
        });
        comparison.refused(number.min(21), place, &wrong)?;
    }
    Ok(())
}

/// The file of events with these chains.
fn file_of(random: &mut Random, segments: &Chains) -> File {
    let mut lineup = Lineup::new();
    for (index, sections) in segments.iter().enumerate() {
        lineup.segment(random, index, &sections.concat());
    }
    let given = Given::new(Caller::Broadcast, random, lineup);
    let counts = |sections: &Vec<Vec<usize>>| sections.iter().map(Vec::len).collect();
    Layout::of(segments.iter().map(counts).enumerate().collect()).file(&given)
}
