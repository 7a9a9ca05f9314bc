//! The times that a list's events take while a script is written for it, and those that are free.

use crate::lists::{DURATION_MAX, START_END};
use crate::overlapping::Neighbours;
use crate::random::Random;
use crate::times::{duration, Times};
use std::collections::BTreeMap;

/// Starts near the front come up often, so that events crowd there.
const FRONT: usize = 64;
/// An event that fits nowhere after so many tries stays near.
const TRIES: usize = 8;

pub struct Timetable {
    by_start: BTreeMap<u32, Times>,
}

impl Timetable {
    pub fn of(times: impl Iterator<Item = Times>) -> Timetable {
        Timetable { by_start: times.map(|times| (times.start, times)).collect() }
    }

    pub fn insert(&mut self, times: Times) {
        self.by_start.insert(times.start, times);
    }

    pub fn remove(&mut self, times: Times) {
        self.by_start.remove(&times.start);
    }

    /// When the last event is over.
    pub fn end(&self) -> u32 {
        self.by_start.last_key_value().map_or(0, |(_, last)| last.end())
    }

    /// How many seconds are free from this start on, at most as many as an event can take.
    fn room(&self, start: u32) -> u32 {
        let taken = self.before(start + 1).is_some_and(|before| before.end() > start);
        let next = self.behind(start).map_or(u32::MAX, |next| next.start);
        if taken {
            0
        } else {
            (next - start).min(DURATION_MAX)
        }
    }

    /// Free times, often just behind this event.
    pub fn free(&self, random: &mut Random, beside: Option<Times>) -> Times {
        loop {
            let start = likely(random, beside.map(Times::end));
            let room = self.room(start);
            if room > 0 {
                return Times { start, duration: duration(random, room) };
            }
        }
    }

    /// Free times of this event's duration, which left: often just beside another event, anywhere if there is room, and
    /// else where it was or near.
    pub fn free_for(&self, random: &mut Random, left: Times, beside: Option<Times>) -> Times {
        for _ in 0..TRIES {
            let touching = beside.map(|beside| {
                let before = beside.start.saturating_sub(left.duration);
                random.pick(&[before, beside.end()])
            });
            let start = likely(random, touching);
            if self.room(start) >= left.duration {
                return Times { start, ..left };
            }
        }
        let first = self.before(left.start).map_or(0, |before| before.end());
        let next = self.behind(left.start).map_or(START_END, |next| next.start);
        let last = next.saturating_sub(left.duration).clamp(left.start, START_END - 1);
        Times { start: first + random.below((last - first + 1) as usize) as u32, ..left }
    }

    /// The event with these times, and those beside it.
    pub fn neighbours(&self, own: Times) -> Neighbours {
        Neighbours { before: self.before(own.start), own, behind: self.behind(own.start) }
    }

    fn before(&self, start: u32) -> Option<Times> {
        self.by_start.range(..start).next_back().map(|(_, times)| *times)
    }

    fn behind(&self, start: u32) -> Option<Times> {
        self.by_start.range(start + 1..).next().map(|(_, times)| *times)
    }
}

/// This start, one near the front, or any.
fn likely(random: &mut Random, start: Option<u32>) -> u32 {
    let end = random.pick(&[FRONT, START_END as usize, START_END as usize]);
    let any = random.below(end) as u32;
    match start {
        Some(start) if start < START_END && random.one_in(3) => start,
        _ => any,
    }
}
