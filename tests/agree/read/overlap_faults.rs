//! Faults of what Read says to overlap: each stands in for the library, and must show.

use super::comparison::ReadCall;
use super::rule_faults::Replaced;
use crate::other::{frame, read, refused, Before, Caller, Received, ReceivedEvent, Times};

const SEGMENT_SECONDS: i64 = 10_800;
const TABLE_SECONDS: i64 = 345_600;
const WINDOW_SECONDS: i64 = 5_529_600;

const RULE: &str = "no overlap with the event before";

/// Starts rise in any case.
pub const REPLACED: [Replaced; 9] = [
    ("takes events that overlap", RULE, |section, before| all(section, before, |_, _| true)),
    ("takes events that overlap by a second", RULE, |section, before| {
        all(section, before, |event, next| event.end <= next.start + 1)
    }),
    ("takes no events that touch", RULE, |section, before| all(section, before, |event, next| event.end < next.start)),
    ("looks for overlap inside a section alone", RULE, |section, before| {
        let first = Before { last_times: None, ids: Default::default(), ..*before };
        all(section, before, |_, _| true) && all(section, &first, is_clear)
    }),
    ("looks for overlap with earlier sections alone", RULE, |section, before| {
        let first = section.events.first().map(ReceivedEvent::times);
        let is_first_clear = before.last_times.zip(first).is_none_or(|(last, first)| is_clear(&last, &first));
        all(section, before, |_, _| true) && is_first_clear
    }),
    ("looks for overlap inside a segment alone", RULE, |section, before| {
        all(section, before, |event, next| is_clear(event, next) || apart(event, next, SEGMENT_SECONDS) > 0)
    }),
    ("looks for overlap up to the next segment alone", RULE, |section, before| {
        all(section, before, |event, next| is_clear(event, next) || apart(event, next, SEGMENT_SECONDS) > 1)
    }),
    ("looks for overlap inside a table alone", RULE, |section, before| {
        all(section, before, |event, next| is_clear(event, next) || apart(event, next, TABLE_SECONDS) > 0)
    }),
    ("takes no event that ends past the window", RULE, |section, before| {
        let ends = section.events.iter().map(|event| event.times().end);
        all(section, before, is_clear) && ends.max().is_none_or(|end| end <= WINDOW_SECONDS)
    }),
];

/// Whether this holds of each event and the one before, wherever that stands.
fn all(section: &Received, before: &Before, holds: fn(&Times, &Times) -> bool) -> bool {
    let times = section.events.iter().map(ReceivedEvent::times);
    let rise_and_hold = |event: &Times, next: &Times| event.start < next.start && holds(event, next);
    before.last_times.into_iter().chain(times).is_sorted_by(rise_and_hold)
}

fn is_clear(event: &Times, next: &Times) -> bool {
    event.end <= next.start
}

/// How many parts of so many seconds later the next event is than the event.
fn apart(event: &Times, next: &Times, seconds: i64) -> i64 {
    next.start.div_euclid(seconds) - event.start.div_euclid(seconds)
}

/// Faults of its answers.
pub const READS: [(&str, ReadCall); 2] = [
    ("charges an overlap to the section of the earlier event", |caller, file, base_day, records| {
        let reading = read(caller, file, base_day, records);
        match overlapped(caller, file, base_day, reading.value) {
            Some(offset) if reading.number == 24 => refused(24, offset),
            _ => reading,
        }
    }),
    ("says 23 for an overlap with an earlier section", |caller, file, base_day, records| {
        let reading = read(caller, file, base_day, records);
        match overlapped(caller, file, base_day, reading.value) {
            Some(_) if reading.number == 24 => refused(23, reading.value),
            _ => reading,
        }
    }),
];

/// Where the section stands whose last event overlaps the first one of the section at this offset, the next section
/// with events.
fn overlapped(caller: Caller, file: &[u8], base_day: u32, offset: usize) -> Option<usize> {
    let mut last = None;
    let mut at = 0;
    while at < offset {
        let section = Received::new(frame(caller.sizes(), &file[at..])?, base_day);
        last = section.events.last().map(|event| (at, event.times())).or(last);
        at += section.bytes.len();
    }
    let section = Received::new(frame(caller.sizes(), file.get(offset..)?)?, base_day);
    let (earlier, last) = last?;
    let first = section.events.first()?.times();
    (!is_clear(&last, &first)).then_some(earlier)
}
