//! Sound lists: 01, "Event record and sound list", and 02, W-204 and W-206.

use super::event::{Event, Follows, Pools, NUMBERS};
use std::collections::{BTreeMap, HashMap};

/// A sound list's events in the order of their starts. Two events with one start, or with one id, have no place here.
pub struct List {
    by_start: BTreeMap<u32, Event>,
    start_of: HashMap<u32, u32>,
    /// The most events held so far: a record of the buffer below it that is not held now was freed.
    most: usize,
}

impl List {
    /// The buffer's first `count` records, if they are a sound list of at most so many events.
    pub fn read(events_max: usize, follows: Follows, buffer: &[u32], count: usize, pools: Pools) -> Option<List> {
        if count > events_max {
            return None;
        }
        let mut list = List { by_start: BTreeMap::new(), start_of: HashMap::new(), most: 0 };
        let mut before: Option<Event> = None;
        for numbers in buffer.get(..NUMBERS * count)?.chunks(NUMBERS) {
            let event = Event::of(numbers);
            let sound = event.in_range()
                && pools.hold_chain_of(&event)
                && before.is_none_or(|before| before.start < event.start && follows(&before, &event))
                && list.start_of(event.id).is_none();
            if !sound {
                return None;
            }
            before = Some(event);
            list.insert(event);
        }
        Some(list)
    }

    /// Writes the events to the front of the buffer, and zeros over every record freed. Other numbers stay.
    pub fn write(&self, buffer: &mut [u32]) {
        let (held, behind) = buffer.split_at_mut(NUMBERS * self.len());
        for (numbers, event) in held.chunks_mut(NUMBERS).zip(self.by_start.values()) {
            numbers.copy_from_slice(&event.numbers());
        }
        behind[..NUMBERS * (self.most - self.len())].fill(0);
    }

    pub fn len(&self) -> usize {
        self.by_start.len()
    }

    pub fn events(&self) -> impl Iterator<Item = &Event> {
        self.by_start.values()
    }

    pub fn start_of(&self, id: u32) -> Option<u32> {
        self.start_of.get(&id).copied()
    }

    /// Whether the event overlaps one of the list. Of those that start before it is over, the last one ends last.
    pub fn overlaps(&self, event: &Event) -> bool {
        let last = self.by_start.range(..event.end()).next_back();
        last.is_some_and(|(_, last)| last.end() > event.start)
    }

    /// Inserts an event whose id and start are new.
    pub fn insert(&mut self, event: Event) {
        self.start_of.insert(event.id, event.start);
        self.by_start.insert(event.start, event);
        self.most = self.most.max(self.len());
    }

    pub fn remove(&mut self, id: u32) -> Option<Event> {
        let start = self.start_of.remove(&id)?;
        self.by_start.remove(&start)
    }
}
