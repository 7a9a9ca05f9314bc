//! Makers of unsound lists, of every kind; those that overlap have more of their own.

use crate::lists::{high_bit, List, DURATION, DURATION_MAX, ID, MARKS, NUMBERS, START, START_END};
use crate::other::Caller;
use crate::overlapping::lengthened;
use crate::pools::Pools;
use crate::random::Random;

/// The sound list, of at least one event, with one thing wrong each: none is sound.
pub fn unsound(caller: Caller, random: &mut Random, pools: &Pools, list: &List) -> Vec<(&'static str, List)> {
    let place = random.below(list.count);
    let last = list.count - 1;
    let mut lists = vec![
        ("id one beyond", list.with(place, ID, &[65_536])),
        ("start one beyond", list.with(last, START, &[START_END])),
        ("no duration", list.with(place, DURATION, &[0])),
        ("duration one beyond", list.with(place, DURATION, &[DURATION_MAX + 1])),
        ("marks one beyond", list.with(place, MARKS, &[8, 0, 0])),
        ("marks one beyond, series", list.with(place, MARKS, &[10, 0, 0])),
        ("count beyond the buffer", list.with_count(list.numbers.len() / NUMBERS + 1)),
        ("count one beyond the caller's", list.with_count(caller.sizes().events + 1)),
        ("count 2^32", list.with_count(1 << 32)),
        ("count 2^63", list.with_count(1 << 63)),
        ("count of which six wrap to 2", list.with_count(usize::MAX / NUMBERS + 1)),
        ("highest count", list.with_count(usize::MAX)),
    ];
    for field in [ID, START, DURATION, MARKS] {
        // A start out of range keeps the order in the last place alone.
        let place = if field == START { last } else { place };
        lists.push(("high bit", list.with(place, field, &[list.get(place, field) | high_bit(random, field)])));
    }
    for marks in [5, 2] {
        let pool = pools.of_marks(marks);
        let mut parts = [pool.no_chains(random), pool.beyond_by_a_bit(random, 31)].concat();
        parts.extend([[0, 1 << 16], [0, 1 << 31], [1, u32::MAX], [u32::MAX, u32::MAX]]);
        for [offset, length] in parts {
            lists.push(("no chain", list.with(place, MARKS, &[marks, offset, length])));
        }
    }
    lists.extend(out_of_order(random, list));
    lists
}

/// The list with starts that do not rise, with events that overlap, or with equal ids.
fn out_of_order(random: &mut Random, list: &List) -> Vec<(&'static str, List)> {
    let last = list.count - 1;
    let mut lists = Vec::new();
    if last > 0 {
        let next = 1 + random.below(last);
        let (before, start) = (list.get(next - 1, START), list.get(next, START));
        let mut falling = list.with(next, START, &[before]);
        falling.set(next - 1, START, &[start]);
        lists.push(("starts fall", falling));
        lists.push(("starts equal", list.with(next, START, &[before])));
        lists.extend(lengthened(list, next - 1, 1).map(|list| ("overlap by a second", list)));
        lists.push(("ids of neighbours equal", list.with(next, ID, &[list.get(next - 1, ID)])));
    }
    if last > 1 {
        lists.push(("ids far apart equal", list.with(0, ID, &[list.get(last, ID)])));
    }
    lists
}

/// The sound list, of at least one event, made unsound by the forbidden tag alone, which both pools have.
pub fn tagged(random: &mut Random, pools: &Pools, list: &List) -> Vec<List> {
    let place = random.below(list.count);
    let mut lists = Vec::new();
    for marks in [5, 2] {
        let parts = pools.of_marks(marks).with_forbidden_tag(random);
        assert!(!parts.is_empty(), "a pool is without the forbidden tag");
        lists.extend(parts.iter().map(|[offset, length]| list.with(place, MARKS, &[marks, *offset, *length])));
    }
    lists
}
