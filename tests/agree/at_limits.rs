//! Makers of sound lists with a value at its limit.

use crate::lists::{List, DURATION, DURATION_MAX, ID, MARKS, START, START_END};
use crate::pools::Pools;
use crate::random::Random;
use crate::times::Times;

/// The list, of at least one event, with one value at its limit each: all are sound.
pub fn at_limits(random: &mut Random, pools: &Pools, list: &List) -> Vec<List> {
    let place = random.below(list.count);
    let last = list.count - 1;
    let mut lists = vec![
        list.with(0, START, &[0]),
        list.with(last, START, &[START_END - 1]),
        list.with(place, DURATION, &[1]),
        list.with(last, DURATION, &[DURATION_MAX]),
        list.with(last, START, &[START_END - 1, DURATION_MAX]),
        touching(list),
        list.with(place, MARKS, &[7, pools.series.bytes().len() as u32, 0]),
        list.with(place, MARKS, &[0, pools.day.bytes().len() as u32, 0]),
    ];
    for id in [0, 65_535] {
        if (0..list.count).all(|other| list.get(other, ID) != id) {
            lists.push(list.with(place, ID, &[id]));
        }
    }
    for marks in [5, 2] {
        if let Some([offset, length]) = pools.of_marks(marks).last_descriptor() {
            lists.push(list.with(place, MARKS, &[marks, offset, length]));
        }
    }
    lists
}

/// The list with every event, but those that cannot take as long, up to the very start of the next.
pub fn touching(list: &List) -> List {
    let mut touching = list.clone();
    for place in 1..list.count {
        if let Some(times) = Times::between(list.get(place - 1, START), list.get(place, START)) {
            touching.set(place - 1, DURATION, &[times.duration]);
        }
    }
    touching
}
