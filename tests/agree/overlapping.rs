//! Makers of overlap, of every kind: 02, W-204.

use crate::lists::{record, List, DURATION, ID, MARKS, NUMBERS, START};
use crate::pools::Pools;
use crate::random::Random;
use crate::times::Times;

/// An event, and those beside it in a sound list.
pub struct Neighbours {
    pub before: Option<Times>,
    pub own: Times,
    pub behind: Option<Times>,
}

/// Times that overlap an event's, if its neighbours leave room for such.
type Maker = fn(&mut Random, &Neighbours) -> Option<Times>;

/// What begins before the event, or behind it, is clear of its neighbours, where nothing else is said.
pub const KINDS: [(&str, Maker); 14] = [
    ("into the next by a second", |random, beside| Times::between(beside.earlier(random)?, beside.own.start + 1)),
    ("into the next by many", |random, beside| {
        let end = within(random, beside.own.start + 2, beside.own.end())?;
        Times::between(beside.earlier(random)?, end)
    }),
    ("into the one before by a second", |random, beside| Times::between(beside.last_second()?, beside.later(random)?)),
    ("into the one before by many", |random, beside| {
        let start = within(random, beside.own.start + 1, beside.own.end() - 1)?;
        Times::between(start, beside.later(random)?)
    }),
    ("into both by a second", |_, beside| Times::between(beside.last_second()?, beside.behind?.start + 1)),
    ("into both by many", |random, beside| {
        let behind = beside.behind?;
        let start = within(random, beside.own.start + 1, beside.own.end() - 1)?;
        Times::between(start, within(random, behind.start + 2, behind.end())?)
    }),
    ("around another", |random, beside| Times::between(beside.earlier(random)?, beside.later(random)?)),
    ("around two", |random, beside| {
        let behind = beside.behind?;
        Times::between(beside.earlier(random)?, within(random, behind.end(), behind.end() + NEAR)?)
    }),
    ("inside another", |random, beside| {
        let start = within(random, beside.own.start + 1, beside.own.end())?;
        Times::between(start, within(random, start + 1, beside.own.end())?)
    }),
    ("with its start, shorter", |random, beside| {
        Times::between(beside.own.start, within(random, beside.own.start + 1, beside.own.end())?)
    }),
    ("with its start, longer", |random, beside| Times::between(beside.own.start, beside.later(random)?)),
    ("with its end, shorter", |random, beside| {
        Times::between(within(random, beside.own.start + 1, beside.own.end())?, beside.own.end())
    }),
    ("with its end, longer", |random, beside| Times::between(beside.earlier(random)?, beside.own.end())),
    ("identical", |_, beside| Some(beside.own)),
];

/// What is no overlap: events that touch, and a last one that ends past the window.
pub const TOUCHING: &str = "touching";
pub const PAST_WINDOW: &str = "past the window";

/// What begins before an event or ends behind it does so by at most so much.
const NEAR: u32 = 100_000;

/// A list of at most so many events is short.
const SHORT: usize = 12;

impl Neighbours {
    /// Of the event in this place.
    pub fn of(list: &List, place: usize) -> Neighbours {
        let times = |place: usize| (place < list.count).then(|| list.times(place));
        Neighbours { before: times(place.wrapping_sub(1)), own: list.times(place), behind: times(place + 1) }
    }

    /// A start before the event's and behind the one before it.
    fn earlier(&self, random: &mut Random) -> Option<u32> {
        let first = self.before.map_or(0, Times::end);
        within(random, first.max(self.own.start.saturating_sub(NEAR)), self.own.start)
    }

    /// An end behind the event's, at most where the next one begins.
    fn later(&self, random: &mut Random) -> Option<u32> {
        let last = self.behind.map_or(u32::MAX, |behind| behind.start);
        within(random, self.own.end() + 1, last.min(self.own.end() + NEAR).saturating_add(1))
    }

    /// The event's last second, if it is not its first.
    fn last_second(&self) -> Option<u32> {
        (self.own.duration > 1).then(|| self.own.end() - 1)
    }

    /// Each kind that there is room for.
    pub fn overlaps(&self, random: &mut Random) -> Vec<(&'static str, Times)> {
        KINDS.iter().filter_map(|(kind, times)| Some((*kind, times(random, self)?))).collect()
    }
}

/// A number from `first` on and below `end`, if there is one.
fn within(random: &mut Random, first: u32, end: u32) -> Option<u32> {
    (first < end).then(|| first + random.below((end - first) as usize) as u32)
}

/// The places of a short list, and some of a long one.
pub fn some_places(random: &mut Random, count: usize) -> Vec<usize> {
    (0..count).filter(|_| random.below(count) < SHORT).collect()
}

/// The record of a new event with these times.
pub fn event(random: &mut Random, pools: &Pools, list: &List, times: Times) -> [u32; NUMBERS] {
    let mut record = record(random, pools);
    while (0..list.count).any(|place| list.get(place, ID) == record[ID]) {
        record[ID] = random.below(65_536) as u32;
    }
    record[START..MARKS].copy_from_slice(&times.numbers());
    record
}

/// The sound list, of at least one event, with an event more that overlaps one in this place, of every kind that there
/// is room for. The first two events that overlap are neighbours.
pub fn lists(random: &mut Random, pools: &Pools, list: &List, place: usize) -> Vec<(&'static str, List)> {
    let overlaps = Neighbours::of(list, place).overlaps(random);
    let with_it = |(kind, times): (&'static str, Times)| {
        let record = event(random, pools, list, times);
        let before_equal = random.one_in(2);
        (kind, list.with_event(record, before_equal))
    };
    overlaps.into_iter().map(with_it).collect()
}

/// The sound list with an event that overlaps the next one, by its duration alone, by so many seconds; nothing if no
/// event can take as long.
pub fn lengthened(list: &List, place: usize, seconds: u32) -> Option<List> {
    let own = list.times(place);
    let times = Times::between(own.start, list.times(place + 1).start + seconds)?;
    Some(list.with(place, DURATION, &[times.duration]))
}
