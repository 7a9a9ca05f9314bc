//! Crowded segments of any kind: nearly full sections, sections filled by fractions, and chains of any length. The
//! starts are before the segment's events, between them and behind, in their programmes, taken, and in the segments
//! beside it.

use super::case::{Case, SEGMENT_SECONDS};
use super::comparison::Comparison;
use super::segments::{apart, with_others, INDICES};
use crate::chain_lengths::taking;
use crate::lists::{rising, List, START};
use crate::other::{Caller, EVENT_FRONT};
use crate::random::Random;
use std::collections::BTreeSet;

/// Lists of each kind; broadcast has four times the lengths to be tried.
const LISTS: usize = 25;
const LISTS_CABLE: usize = 80;
/// Starts of each list that are free, between others.
const BETWEEN: usize = 5;

/// The chains of a segment's events.
type Chains = fn(Caller, &mut Random) -> Vec<usize>;

const KINDS: [Chains; 4] = [nearly_full, by_fractions, of_any_length, of_few_bytes];

pub fn run(comparison: &mut Comparison) -> Result<(), String> {
    let random = &mut comparison.groups.begin("crowded");
    let caller = comparison.caller;
    let lists = if caller == Caller::Broadcast { LISTS } else { LISTS_CABLE };
    for chains in KINDS {
        for _ in 0..lists {
            let lengths = chains(caller, random);
            let any = random.below(512);
            let index = if random.one_in(2) { any } else { random.pick(&INDICES) };
            let starts = if random.one_in(3) { crowded(random, lengths.len()) } else { apart(random, lengths.len()) };
            let (pools, list) = &with_others(caller, random, index, &starts, &lengths);
            for start in some_starts(random, list, index) {
                comparison.alike(Case { pools, list, start })?;
            }
        }
    }
    Ok(())
}

/// Six to nine sections with a few bytes left in each.
fn nearly_full(caller: Caller, random: &mut Random) -> Vec<usize> {
    let room = caller.sizes().room();
    let sections = random.pick(&[6, 7, 7, 8, 8, 8, 9]);
    let most = random.pick(&[2, 16, 40, 300]);
    let mut lengths = Vec::new();
    for _ in 0..sections {
        let events = 1 + random.below(4);
        let left = random.below(most);
        lengths.extend(taking(random, room - left, events));
    }
    lengths
}

/// Thirds, halves and the whole of what a section has for its events, and a byte more or less.
fn by_fractions(caller: Caller, random: &mut Random) -> Vec<usize> {
    let room = caller.sizes().room();
    let fractions =
        [room / 3, room / 3 + 1, room / 2 - 1, room / 2, room / 2 + 1, room * 2 / 3, room - EVENT_FRONT, room];
    let events = 8 + random.below(10);
    (0..events).map(|_| random.pick(&fractions) - EVENT_FRONT).collect()
}

/// Such that the events fill some eight sections together, and at times one that no section holds.
fn of_any_length(caller: Caller, random: &mut Random) -> Vec<usize> {
    let longest = caller.sizes().chain_max();
    let events = 9 + random.below(24);
    let most = (2 * 8 * longest / events).min(longest);
    let mut lengths: Vec<_> = (0..events).map(|_| 2 + random.below(most - 1)).collect();
    if random.one_in(12) {
        lengths[random.below(events)] = longest + 1 + random.below(300);
    }
    lengths
}

/// Many events of few bytes, which leave much.
fn of_few_bytes(caller: Caller, random: &mut Random) -> Vec<usize> {
    let events = 1 + random.below(60);
    let most = random.pick(&[2, 40, caller.sizes().chain_max() / 8]);
    (0..events).map(|_| if random.one_in(2) { 0 } else { 2 + random.below(most) }).collect()
}

/// Starts in the segment second by second, or from its first second up to its last.
fn crowded(random: &mut Random, events: usize) -> Vec<u32> {
    let all = SEGMENT_SECONDS as usize;
    let (span, from) = random.pick(&[(events + 3, 0), (events + 3, all - events - 3), (all, 0)]);
    let mut starts = rising(random, events, span);
    if random.one_in(2) && starts.insert(0) {
        starts.pop_last();
    }
    starts.into_iter().map(|start| from as u32 + start).collect()
}

/// A taken start of the segment; free ones before, between and behind its events; and one beside it.
fn some_starts(random: &mut Random, list: &List, index: usize) -> Vec<u32> {
    let [first, end] = [index, index + 1].map(|index| SEGMENT_SECONDS * index as u32);
    let is_within = |start: &u32| (first..end).contains(start);
    let own: Vec<_> = (0..list.count).map(|place| list.get(place, START)).filter(is_within).collect();
    let near = own.iter().flat_map(|start| [start.saturating_sub(1), start + 1]).chain([first, end - 1]);
    let free: BTreeSet<_> = near.filter(|start| is_within(start) && !own.contains(start)).collect();
    let free = Vec::from_iter(free);
    let far = random.below(SEGMENT_SECONDS as usize) as u32;
    let beside = random.pick(&[first.saturating_sub(1), first.saturating_sub(1 + far), end, end + far]);
    let mut starts = vec![random.pick(&own), beside];
    if let [lowest, .., highest] = free[..] {
        starts.extend([lowest, highest]);
        starts.extend((0..BETWEEN).map(|_| random.pick(&free)));
    }
    starts
}
