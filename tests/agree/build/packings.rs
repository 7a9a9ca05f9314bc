//! Packings that are not the paper's, for the faults of the self-check. Each has so many bytes for a section's events.

use crate::other::{pack, Event, EVENT_FRONT};

type Sections<'a> = Option<Vec<&'a [Event]>>;

/// A section for each event, as far as a segment has sections.
pub fn one_each(room: usize, events: &[Event]) -> Sections<'_> {
    with_chunks(room, events, 1)
}

/// As many sections as needed, with about as many events in each.
pub fn balanced(room: usize, events: &[Event]) -> Sections<'_> {
    let needed = pack(room, events)?.len();
    with_chunks(room, events, events.len().div_ceil(needed).max(1))
}

/// So many events in each section, where that can be; as it should be where not.
fn with_chunks(room: usize, events: &[Event], events_each: usize) -> Sections<'_> {
    let sections: Vec<_> = events.chunks(events_each).collect();
    let fits = (1..=8).contains(&sections.len()) && sections.iter().all(|section| bytes(section) <= room);
    if fits {
        Some(sections)
    } else {
        pack(room, events)
    }
}

fn bytes(events: &[Event]) -> usize {
    events.iter().map(|event| EVENT_FRONT + event.length as usize).sum()
}

/// Gives the last event that fits the first section to the second, if it fits there with what the second has.
pub fn one_event_early(room: usize, events: &[Event]) -> Sections<'_> {
    let mut sections = pack(room, events)?;
    let may = match sections[..] {
        [first, second, ..] => first.len() > 1 && bytes(&events[first.len() - 1..first.len() + second.len()]) <= room,
        _ => false,
    };
    if may {
        let [first, second] = [sections[0].len() - 1, sections[1].len() + 1];
        sections[0] = &events[..first];
        sections[1] = &events[first..first + second];
    }
    Some(sections)
}

pub fn at_most_eight_events(room: usize, events: &[Event]) -> Sections<'_> {
    pack(room, events).filter(|_| events.len() <= 8)
}
