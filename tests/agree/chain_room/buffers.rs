//! Lists in buffers that hold more: what is behind the count plays no part, be it other numbers, or further events of
//! the segment with starts of their own.

use super::case::{Case, SEGMENT_SECONDS};
use super::comparison::Comparison;
use super::segments::{apart, with_others, INDICES};
use crate::lists::{Behind, NUMBERS, START};
use crate::other::Caller;

pub fn run(comparison: &mut Comparison) -> Result<(), String> {
    let random = &mut comparison.groups.begin("buffers");
    let caller = comparison.caller;
    let longest = caller.sizes().chain_max();
    let times = if caller == Caller::Broadcast { 4 } else { 12 };
    for _ in 0..times {
        // One event in each of eight sections: with all of them nothing fits, and with fewer a section is left.
        let lengths = [longest; 8];
        let starts = apart(random, lengths.len());
        let index = random.pick(&INDICES);
        let (pools, whole) = with_others(caller, random, index, &starts, &lengths);
        let first = SEGMENT_SECONDS * index as u32;
        let is_before = |place: &usize| whole.get(*place, START) < first;
        let before = (0..whole.count).filter(is_before).count();
        for events in [0, 1, 7, 8] {
            let list = whole.with_count(before + events);
            let length = (events < 8).then_some(longest);
            for start in [first + starts[events.min(7)] - 1, first + starts[7] + 1] {
                comparison.gives(length, Case { pools: &pools, list: &list, start })?;
            }
            // The start of an event behind the count is free.
            if let Some(start) = starts.get(events) {
                comparison.gives(length, Case { pools: &pools, list: &list, start: first + start })?;
            }
            let numbers = NUMBERS * list.count;
            for behind in Behind::ALL {
                let mut list = list.clone();
                list.numbers.truncate(numbers);
                let more = random.pick(&[1, 2 * NUMBERS, 2 * NUMBERS + 5, 12_288]);
                let list = &list.in_buffer(random, numbers + more, behind);
                comparison.gives(length, Case { pools: &pools, list, start: first + starts[7] + 1 })?;
            }
        }
    }
    Ok(())
}
