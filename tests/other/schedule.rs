//! A list's events by segment, the range of each table, and the packing rule: 01, "The file of sections" and "Build,
//! Read", and 02, W-204 and W-206.

use super::caller::{Caller, Sizes};
use super::event::{follows, is_chain, Event, Follows, IsChain, Pools};
use super::list::List;
use std::collections::BTreeMap;

/// A table's segments, and the section numbers of each.
pub const SEGMENTS: usize = 32;
pub const SECTIONS_MAX: usize = 8;
pub const SEGMENT_SECONDS: u32 = 10_800;

/// An event's bytes in front of its chain.
pub const EVENT_FRONT: usize = 12;

/// What is lent to Build and Plan alike: a list and the pools.
#[derive(Clone, Copy)]
pub struct Lent<'a> {
    pub list: &'a [u32],
    pub count: usize,
    pub day: &'a [u8],
    pub series: &'a [u8],
}

impl<'a> Lent<'a> {
    pub fn pools(&self) -> Pools<'a> {
        Pools { day: self.day, series: self.series, is_chain }
    }
}

/// The events of each of a segment's sections.
pub type Segment<'a> = Vec<&'a [Event]>;

/// How a segment's events are cut into sections, each with so many bytes for its events; nothing if they cannot be.
type Packing = fn(usize, &[Event]) -> Option<Segment<'_>>;

/// What Build and Plan alike go by: the caller's sizes, which parts are chains, which event
/// may be the next behind which, and the packing rule.
#[derive(Clone, Copy)]
pub struct Method {
    pub sizes: fn(Caller) -> Sizes,
    pub is_chain: IsChain,
    pub follows: Follows,
    pub packing: Packing,
}

pub const PAPERS: Method = Method { sizes: Caller::sizes, is_chain, follows, packing: pack };

/// The events of a sound list by segment index. A segment without events has no entry.
pub struct Schedule {
    by_segment: BTreeMap<usize, Vec<Event>>,
}

impl Schedule {
    /// The lent list's, if it is sound.
    pub fn of(method: Method, caller: Caller, lent: &Lent) -> Option<Schedule> {
        let pools = Pools { is_chain: method.is_chain, ..lent.pools() };
        let list = List::read((method.sizes)(caller).events, method.follows, lent.list, lent.count, pools)?;
        let mut by_segment: BTreeMap<usize, Vec<Event>> = BTreeMap::new();
        for event in list.events() {
            by_segment.entry((event.start / SEGMENT_SECONDS) as usize).or_default().push(*event);
        }
        Some(Schedule { by_segment })
    }

    /// The last table, counted from 0: the last event's, or the first one if there are no events.
    pub fn last_table(&self) -> usize {
        self.by_segment.last_key_value().map_or(0, |(index, _)| index / SEGMENTS)
    }

    /// A table's last segment: its last one that has events, or the first one if none has.
    pub fn last_segment(&self, table: usize) -> usize {
        let indices = SEGMENTS * table..SEGMENTS * (table + 1);
        self.by_segment.range(indices).next_back().map_or(0, |(index, _)| index % SEGMENTS)
    }

    pub fn events(&self, table: usize, segment: usize) -> &[Event] {
        self.by_segment.get(&(SEGMENTS * table + segment)).map_or(&[], Vec::as_slice)
    }
}

/// The packing rule, with so many bytes for a section's events: each section takes as many of the next ones as fit.
/// Nothing if the segment is unpackable.
pub fn pack(room: usize, events: &[Event]) -> Option<Segment<'_>> {
    let mut sections = Vec::new();
    let mut rest = events;
    loop {
        let (section, next) = rest.split_at(fitting(room, rest));
        sections.push(section);
        if next.is_empty() {
            return Some(sections);
        }
        if section.is_empty() || sections.len() == SECTIONS_MAX {
            return None;
        }
        rest = next;
    }
}

/// How many of the events, from the first on, fit into so many bytes.
fn fitting(room: usize, events: &[Event]) -> usize {
    let mut left = room;
    for (place, event) in events.iter().enumerate() {
        match left.checked_sub(EVENT_FRONT + event.length as usize) {
            Some(less) => left = less,
            None => return place,
        }
    }
    events.len()
}
