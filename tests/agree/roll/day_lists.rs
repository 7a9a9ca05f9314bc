//! Makers of sound lists by days, with events at the very ends of a day and of the window, and of the two parts of a
//! list that a roll parts.

use super::outcome::DAY_SECONDS;
use crate::lists::{rising, Behind, List, NUMBERS, START, START_END};
use crate::pools::Pools;
use crate::random::Random;
use crate::times::with_durations;

/// What stands behind a list, and how many numbers at least: records stand behind a record of zeros.
pub const BEHIND: [(Behind, usize); 4] =
    [(Behind::Zeros, 0), (Behind::Zeros, 1), (Behind::Any, 1), (Behind::Records, 2 * NUMBERS)];

/// A sound list of which so many events leave with a roll, and so many stay, in a buffer that ends with it.
pub fn by_days(random: &mut Random, pools: &Pools, leaving: usize, staying: usize) -> List {
    let mut starts = between(random, leaving, 0, DAY_SECONDS);
    starts.extend(between(random, staying, DAY_SECONDS, START_END));
    with_starts(random, pools, &starts)
}

/// A sound list with these starts, which rise, in a buffer that ends with it.
pub fn with_starts(random: &mut Random, pools: &Pools, starts: &[u32]) -> List {
    let mut list = List::sound(random, pools, starts.len(), NUMBERS * starts.len());
    for (place, times) in with_durations(random, starts).into_iter().enumerate() {
        list.set(place, START, &times.numbers());
    }
    list
}

/// So many starts from `first` on and below `end`: anywhere, or crowded at either end; at times the very first or last.
fn between(random: &mut Random, count: usize, first: u32, end: u32) -> Vec<u32> {
    let all = (end - first) as usize;
    let span = random.pick(&[2 * count + 8, all, all]).min(all);
    let from = random.pick(&[first, end - span as u32]);
    let mut starts = rising(random, count, span).into_iter().map(|start| from + start).collect::<Vec<_>>();
    if let [.., last] = &mut starts[..] {
        *last = random.pick(&[*last, *last, end - 1]);
    }
    // Alone, it is both.
    if let [lowest, ..] = &mut starts[..] {
        *lowest = random.pick(&[*lowest, *lowest, first]);
    }
    starts
}

/// The records that leave with a roll, and those that stay; nothing if the buffer lacks some.
pub fn parts(list: &[u32], count: usize) -> Option<[Vec<u32>; 2]> {
    let records = list.get(..NUMBERS.checked_mul(count)?)?.chunks(NUMBERS);
    let (leaving, staying): (Vec<_>, Vec<_>) = records.partition(|record| record[START] < DAY_SECONDS);
    Some([leaving.concat(), staying.concat()])
}
