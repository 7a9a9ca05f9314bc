//! Makers of commands for a list at its limit, by the places of its events.

use crate::lists::{new_id, record, List, ID, MARKS, START, START_END};
use crate::pools::Pools;
use crate::random::Random;
use crate::reuse::EDITS;
use crate::scripts::Command;
use crate::spaced::{DURATION_MAX, MARGIN};
use crate::times::Times;
use std::collections::HashSet;

/// An event comes at most so far before the first or behind the last: with its duration, a step for each edit stays
/// within the margin.
const STEP_MAX: u32 = MARGIN / EDITS as u32 - DURATION_MAX;

/// A start from which on so many seconds are free.
type Place = fn(&Full, &mut Random, u32) -> u32;

/// A list and the script that is written for it.
pub struct Full {
    /// Times and ids, in the order of starts.
    pub events: Vec<(Times, u32)>,
    ids: HashSet<u32>,
    /// The event that left last.
    left: Option<(Times, u32)>,
    pub commands: Vec<Command>,
}

impl Full {
    pub fn by(list: &List) -> Full {
        let events: Vec<_> = (0..list.count).map(|place| (list.times(place), list.get(place, ID))).collect();
        Full { ids: events.iter().map(|event| event.1).collect(), events, left: None, commands: Vec::new() }
    }

    /// As far from the ends of the window as the list's events were first.
    pub fn anywhere(&self, random: &mut Random, duration: u32) -> u32 {
        loop {
            let start = MARGIN + random.below((START_END - 2 * MARGIN) as usize) as u32;
            let times = Times { start, duration };
            let place = self.place(start);
            let beside = &self.events[place.saturating_sub(1)..(place + 1).min(self.events.len())];
            if !beside.iter().any(|(other, _)| times.overlaps(*other)) {
                return start;
            }
        }
    }

    pub fn before_all(&self, random: &mut Random, duration: u32) -> u32 {
        self.events[0].0.start - duration - random.below(STEP_MAX as usize) as u32
    }

    pub fn behind_all(&self, random: &mut Random, _: u32) -> u32 {
        self.events[self.events.len() - 1].0.end() + random.below(STEP_MAX as usize) as u32
    }

    /// For an event that ends before the next one begins.
    pub fn where_one_left(&self, _: &mut Random, _: u32) -> u32 {
        self.left.map_or(0, |(times, _)| times.start)
    }

    /// PUT of an event that would fit where one left last, at times with the id of that.
    pub fn put(&mut self, random: &mut Random, pools: &Pools, place: Place) {
        let most = self.left.map_or(DURATION_MAX, |(left, _)| self.room(left.start));
        let duration = if random.one_in(2) { most } else { 1 + random.below(most as usize) as u32 };
        let times = Times { start: place(self, random, duration), duration };
        let mut record = record(random, pools);
        record[ID] = match self.left.take() {
            Some((_, left)) if random.one_in(2) && self.ids.insert(left) => left,
            _ => new_id(random, &mut self.ids, 65_536),
        };
        record[START..MARKS].copy_from_slice(&times.numbers());
        self.insert(times, record[ID]);
        self.commands.push(Command::Put(record));
    }

    /// WITHDRAW of the event at this place.
    pub fn withdraw(&mut self, place: usize) {
        let (times, id) = self.events.remove(place);
        self.ids.remove(&id);
        self.left = Some((times, id));
        self.commands.push(Command::Withdraw(id));
    }

    /// MOVE of the event at this place to another.
    pub fn move_one(&mut self, random: &mut Random, place: usize, to: Place) {
        let (times, id) = self.events.remove(place);
        let start = to(self, random, times.duration);
        self.insert(Times { start, ..times }, id);
        self.commands.push(Command::Move(id, start));
    }

    fn insert(&mut self, times: Times, id: u32) {
        let place = self.place(times.start);
        self.events.insert(place, (times, id));
    }

    /// How many seconds are free from this start on, which is in no event, at most as many as one takes.
    fn room(&self, start: u32) -> u32 {
        let next = self.events.get(self.place(start));
        next.map_or(DURATION_MAX, |(next, _)| (next.start - start).min(DURATION_MAX))
    }

    /// How many events start earlier.
    fn place(&self, start: u32) -> usize {
        self.events.partition_point(|(times, _)| times.start < start)
    }
}
