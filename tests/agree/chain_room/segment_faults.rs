//! Faults of the events that the new one stands among, and of its place: each stands in for the library, and must show.

use super::case::SEGMENT_SECONDS;
use crate::other::{Event, EVENT_FRONT};

/// The bytes of each event that is counted, and the place of the new one among them.
pub type Segment = fn(&[Event], u32) -> (Vec<usize>, usize);

/// Faults that show also if they are on both sides.
pub const EVENTS: [(&str, Segment); 10] = [
    ("puts the event at the segment's end", |events, start| {
        let own = own(events, start);
        (bytes(&own), own.len())
    }),
    ("puts the event at the segment's front", |events, start| (bytes(&own(events, start)), 0)),
    ("puts the event a place early", |events, start| {
        let own = own(events, start);
        (bytes(&own), place(&own, start).saturating_sub(1))
    }),
    ("puts the event a place late", |events, start| {
        let own = own(events, start);
        (bytes(&own), (place(&own, start) + 1).min(own.len()))
    }),
    ("forgets the segment's events before the start", |events, start| {
        among(events, start, |event| is_own(event, start) && event.start > start)
    }),
    ("forgets the segment's events behind the start", |events, start| {
        among(events, start, |event| is_own(event, start) && event.start < start)
    }),
    ("counts the segment before, too", |events, start| {
        among(events, start, |event| is_own(event, start) || index(event.start) + 1 == index(start))
    }),
    ("counts the next segment, too", |events, start| {
        among(events, start, |event| is_own(event, start) || index(event.start) == index(start) + 1)
    }),
    ("counts the events of all segments", |events, start| among(events, start, |_| true)),
    ("counts no events", |events, start| among(events, start, |_| false)),
];

/// Faults at the ends of a segment.
pub const ENDS: [(&str, Segment); 6] = [
    ("forgets the segment's first second", |events, start| {
        among(events, start, |event| is_own(event, start) && event.start % SEGMENT_SECONDS > 0)
    }),
    ("forgets the segment's last second", |events, start| {
        among(events, start, |event| is_own(event, start) && (event.start + 1) % SEGMENT_SECONDS > 0)
    }),
    ("counts the next segment's first second, too", |events, start| {
        among(events, start, |event| is_own(event, start) || event.start == SEGMENT_SECONDS * (index(start) + 1))
    }),
    ("counts the last second of the segment before, too", |events, start| {
        among(events, start, |event| is_own(event, start) || event.start + 1 == SEGMENT_SECONDS * index(start))
    }),
    ("takes a start in a segment's first second for the one before's", |events, start| {
        among(events, start, |event| index(event.start) == index(start.saturating_sub(1)))
    }),
    ("takes a start in a segment's last second for the next one's", |events, start| {
        among(events, start, |event| index(event.start) == index(start + 1))
    }),
];

/// The events for which this holds, and the place of the start among them.
fn among(events: &[Event], start: u32, is_counted: impl Fn(&Event) -> bool) -> (Vec<usize>, usize) {
    let counted: Vec<_> = events.iter().copied().filter(is_counted).collect();
    (bytes(&counted), place(&counted, start))
}

fn own(events: &[Event], start: u32) -> Vec<Event> {
    events.iter().copied().filter(|event| is_own(event, start)).collect()
}

fn is_own(event: &Event, start: u32) -> bool {
    index(event.start) == index(start)
}

fn index(start: u32) -> u32 {
    start / SEGMENT_SECONDS
}

fn place(events: &[Event], start: u32) -> usize {
    events.iter().filter(|event| event.start < start).count()
}

fn bytes(events: &[Event]) -> Vec<usize> {
    events.iter().map(|event| EVENT_FRONT + event.length as usize).collect()
}
