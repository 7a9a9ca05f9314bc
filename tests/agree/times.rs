//! When events begin and how long they take: the one maker of the times of sound lists, in which no event begins before
//! the one before it is over (02, W-204). Many begin in the very second in which it is.

use crate::lists::{rising, DURATION_MAX, START_END};
use crate::random::Random;

/// Most programmes of a list whose events are not crowded begin at most so long after the one before.
const PROGRAMME: usize = 7_200;
const SHORT: u32 = 60;

#[derive(Clone, Copy, Debug, PartialEq)]
pub struct Times {
    pub start: u32,
    pub duration: u32,
}

impl Times {
    /// From the start up to the end, if a record can have them.
    pub fn between(start: u32, end: u32) -> Option<Times> {
        let duration = end.checked_sub(start)?;
        let in_range = start < START_END && (1..=DURATION_MAX).contains(&duration);
        in_range.then_some(Times { start, duration })
    }

    pub fn end(self) -> u32 {
        self.start + self.duration
    }

    pub fn numbers(self) -> [u32; 2] {
        [self.start, self.duration]
    }

    /// Whether the two have a second in common.
    pub fn overlaps(self, other: Times) -> bool {
        self.start < other.end() && other.start < self.end()
    }
}

/// The times of so many events: second by second, as programmes follow each other, or over the whole window.
pub fn draw(random: &mut Random, count: usize, crowded: bool) -> Vec<Times> {
    let window = START_END as usize;
    let spread = random.pick(&[PROGRAMME * (count + 1), window]).min(window);
    let starts = rising(random, count, if crowded { 2 * count + 8 } else { spread });
    with_durations(random, &starts.into_iter().collect::<Vec<_>>())
}

/// These starts, which rise, each with a duration up to the next one at most. The last event may end past the window.
pub fn with_durations(random: &mut Random, starts: &[u32]) -> Vec<Times> {
    let next = starts.iter().skip(1).copied().chain([u32::MAX]);
    let times = |(start, next): (&u32, u32)| Times { start: *start, duration: duration(random, next - start) };
    starts.iter().zip(next).map(times).collect()
}

/// A duration where so many seconds are free, at least one: all of them, a short one, or any.
pub fn duration(random: &mut Random, room: u32) -> u32 {
    let most = room.min(DURATION_MAX);
    match random.below(6) {
        0 | 1 => most,
        2 | 3 => 1 + random.below(most.min(SHORT) as usize) as u32,
        _ => 1 + random.below(most as usize) as u32,
    }
}
