//! Makers of lists to search: their starts rise or do not.

use crate::lists::{rising, List, NUMBERS, START, START_END};
use crate::random::Random;

/// So many starts.
pub type Shape = fn(&mut Random, usize) -> Vec<u32>;

pub const ALL: [Shape; 10] = [
    |random, count| rising(random, count, START_END as usize).into_iter().collect(),
    // One second after the other, from 0 and up to the last number that there is.
    |_, count| (0..count as u32).collect(),
    |_, count| (0..count as u32).rev().map(|before| u32::MAX - before).collect(),
    // Rising with equals among them, and all equal.
    |random, count| {
        let mut starts = any(random, count, count / 2 + 1);
        starts.sort();
        starts
    },
    |random, count| vec![random.number(); count],
    // One out of its place.
    |random, count| {
        let mut starts: Vec<_> = rising(random, count, START_END as usize).into_iter().collect();
        if count > 1 {
            starts.swap(random.below(count), random.below(count));
        }
        starts
    },
    // Falling.
    |random, count| rising(random, count, START_END as usize).into_iter().rev().collect(),
    // In any order.
    |random, count| any(random, count, 8),
    |random, count| any(random, count, 1 << 32),
    |random, count| (0..count).map(|_| random.pick(&[0, 1, 0x7FFF_FFFF, 0x8000_0000, u32::MAX])).collect(),
];

/// So many numbers below `end`.
pub fn any(random: &mut Random, count: usize, end: usize) -> Vec<u32> {
    (0..count).map(|_| random.below(end) as u32).collect()
}

/// A list with these starts, all else of any kind, and so many numbers behind its records.
pub fn with_starts(random: &mut Random, starts: &[u32], behind: usize) -> List {
    let count = starts.len();
    let mut list = List { numbers: (0..NUMBERS * count + behind).map(|_| random.number()).collect(), count };
    for (place, start) in starts.iter().enumerate() {
        list.set(place, START, &[*start]);
    }
    list
}

/// The starts, the numbers beside each, and the least and the greatest number, each once.
pub fn around(starts: &[u32]) -> Vec<u32> {
    let mut around: Vec<_> =
        starts.iter().flat_map(|start| [start.saturating_sub(1), *start, start.saturating_add(1)]).collect();
    around.extend([0, u32::MAX]);
    around.sort();
    around.dedup();
    around
}
