//! Files that end early, events that are too many, and record buffers that are short: 25, 26 and 27.

use super::comparison::{Comparison, RECORDS_MAX};
use super::event_fields::{put, DURATION, STATUS};
use super::given::Given;
use super::layout::{rival, Layout};
use crate::other::Caller;
use crate::random::Random;
use std::collections::BTreeMap;

pub fn run(comparison: &mut Comparison) -> Result<(), String> {
    let random = &mut comparison.groups.begin("ends");
    for _ in 0..20 {
        let given = Given::some(comparison.caller, random);
        let file = rival(random, &given);
        let bytes = file.bytes();
        for place in 0..file.sections.len() {
            let end = file.offset(place);
            comparison.answers((25, end), &bytes[..end], file.base_day)?;
        }
    }
    for segments in [&[][..], &[(0, 1)], &[(0, 3), (2, 2)], &[(1, 12), (33, 4)]] {
        let given = Given::short(comparison.caller, random, segments);
        short_buffers(comparison, random, &given)?;
    }
    let chunk = chunk(comparison.caller);
    for behind in [1, 2, chunk / 8] {
        for before in [0, 1, chunk] {
            too_many(comparison, random, before, behind)?;
        }
    }
    Ok(())
}

/// Every shorter record buffer, and some longer ones.
fn short_buffers(comparison: &mut Comparison, random: &mut Random, given: &Given) -> Result<(), String> {
    let bytes = rival(random, given).bytes();
    let need = 6 * given.list.count;
    for room in (0..need + 20).chain([RECORDS_MAX - 1, RECORDS_MAX, RECORDS_MAX + 1]) {
        let number = if room < need { 27 } else { 0 };
        comparison.read_answers((number, given.list.count), &bytes, given.base_day, room)?;
    }
    Ok(())
}

/// A section in which so many of the caller's most events stand, and so many more: without the latter the file is
/// accepted, with them it is refused, and a broken event anywhere in the section is refused first.
fn too_many(comparison: &mut Comparison, random: &mut Random, before: usize, behind: usize) -> Result<(), String> {
    let full = comparison.caller.sizes().events - before;
    let segments = [(0, full / 2), (3, full - full / 2), (40, before + behind), (41, 3)];
    let given = Given::short(comparison.caller, random, &segments);
    let mut cuts = chunked(comparison.caller, &segments);
    cuts.insert(40, vec![before + behind]);
    let file = Layout::of(cuts).file(&given);
    let place = file.last() - 1;
    comparison.refused(26, place, &file)?;
    for (k, event) in file.events_in(place).into_iter().enumerate() {
        if k + 1 >= before || random.one_in(16) {
            let broken = file.with(place, |section| put(section, event + DURATION, &[0; 3]));
            comparison.refused(24, place, &broken)?;
            // This bit makes running_status 0 a 2, and 5 a 7.
            let broken = file.with(place, |section| section[event + STATUS] |= 0x40);
            comparison.refused(24, place, &broken)?;
        }
    }
    // As many as there may be, and one more in a section of its own.
    let segments = [(0, full / 2), (3, full - full / 2), (40, before), (41, 1)];
    let given = Given::short(comparison.caller, random, &segments);
    let file = Layout::of(chunked(comparison.caller, &segments)).file(&given);
    comparison.refused(26, file.last(), &file)?;
    let mut without = segments;
    without[3].1 = 0;
    let given = Given::short(comparison.caller, random, &without);
    comparison.accepted(&Layout::of(chunked(comparison.caller, &without)).file(&given))
}

/// Events of a section, which has room for more if their chains are of at most a few bytes.
fn chunk(caller: Caller) -> usize {
    caller.sizes().room() / 27
}

/// The segments' events in sections that are not full.
pub fn chunked(caller: Caller, segments: &[(usize, usize)]) -> BTreeMap<usize, Vec<usize>> {
    let chunk = chunk(caller);
    let chunks = |events: usize| {
        let mut counts = vec![chunk; events / chunk];
        counts.extend((events % chunk > 0).then_some(events % chunk));
        counts
    };
    let held = segments.iter().filter(|(_, events)| *events > 0);
    held.map(|(index, events)| (*index, chunks(*events))).collect()
}
