//! Edits at every place of a list: before, between and behind its events, and onto them.

use crate::edits::Comparison;
use crate::held::Held;
use crate::lists::{record, List, DURATION, ID, MARKS, NUMBERS, START, START_END};
use crate::pools::Pools;
use crate::random::Random;
use crate::scripts::{bytes, Command};
use crate::spaced::{spaced, FREE_MIN};
use crate::times::Times;

/// One edit a call, on lists of so many events.
const COUNTS: [usize; 9] = [0, 1, 7, 8, 9, 16, 17, 255, 256];
/// Each event to each place, on lists of up to so many events.
const ALL_PAIRS_MAX: usize = 17;
/// PUT alone, and the others together in a call, on a list of so many.
const LARGE: usize = 2_047;

pub fn run(comparison: &mut Comparison) -> Result<(), String> {
    let random = &mut comparison.groups.begin("places");
    let pools = Pools::of_lengths(random, 300, 200);
    let most = comparison.caller.sizes().events;
    for count in COUNTS {
        let list = one_below_full(random, &pools, count);
        if count < most {
            puts(comparison, random, &pools, &list)?;
        }
        withdraws(comparison, &pools, &list)?;
        moves(comparison, &pools, &list)?;
    }
    if LARGE < most {
        large(comparison, random, &pools)?;
    }
    Ok(())
}

/// A list of so many events in a buffer for one more.
fn one_below_full(random: &mut Random, pools: &Pools, count: usize) -> List {
    let numbers = NUMBERS * (count + 1) + random.below(NUMBERS);
    spaced(random, pools, count, numbers)
}

/// Times of so many seconds that are free at this place: next to its neighbours, and at the window's ends.
fn free_times(list: &List, place: usize, duration: u32) -> Vec<Times> {
    let from = if place > 0 { list.times(place - 1).end() } else { 0 };
    let to = if place < list.count { list.times(place).start } else { START_END + duration - 1 };
    let starts = [Some(from), to.checked_sub(duration)].into_iter().flatten();
    starts.map(|start| Times { start, duration }).filter(|times| from <= times.start && times.end() <= to).collect()
}

/// PUT at each place, and onto each start, which is refused.
fn puts(comparison: &mut Comparison, random: &mut Random, pools: &Pools, list: &List) -> Result<(), String> {
    let held = Held::by(comparison.caller, list);
    for place in 0..=list.count {
        for times in free_times(list, place, 1).into_iter().chain(free_times(list, place, 4)) {
            let put = put(random, pools, &held, times);
            comparison.answers((0, list.count + 1), pools, list, &bytes(&[put]))?;
        }
    }
    for place in 0..list.count {
        let times = Times { duration: 1, ..list.times(place) };
        let put = put(random, pools, &held, times);
        comparison.answers((30, 0), pools, list, &bytes(&[put]))?;
    }
    Ok(())
}

fn put(random: &mut Random, pools: &Pools, held: &Held, times: Times) -> Command {
    let mut record = record(random, pools);
    record[ID] = held.new_id(random);
    record[START..MARKS].copy_from_slice(&times.numbers());
    Command::Put(record)
}

fn withdraws(comparison: &mut Comparison, pools: &Pools, list: &List) -> Result<(), String> {
    (0..list.count).try_for_each(|place| {
        let withdraw = Command::Withdraw(list.get(place, ID));
        comparison.answers((0, list.count - 1), pools, list, &bytes(&[withdraw]))
    })
}

/// MOVE of each event: onto its own start and beside it, past its neighbours, to both ends, onto the start of a
/// neighbour, which is refused; on a short list to each place that has room for it.
fn moves(comparison: &mut Comparison, pools: &Pools, list: &List) -> Result<(), String> {
    for place in 0..list.count {
        let (id, own) = (list.get(place, ID), list.times(place));
        let away: Vec<_> = if list.count <= ALL_PAIRS_MAX {
            (0..=list.count).flat_map(|place| free_times(list, place, own.duration)).collect()
        } else {
            let places = [0, place.saturating_sub(1), (place + 2).min(list.count), list.count];
            places.into_iter().filter_map(|place| free_times(list, place, own.duration).first().copied()).collect()
        };
        let near = [own.start - 1, own.start, own.start + 1];
        for start in near.into_iter().chain(away.iter().map(|times| times.start)) {
            comparison.answers((0, list.count), pools, list, &bytes(&[Command::Move(id, start)]))?;
        }
        for neighbour in [place.wrapping_sub(1), place + 1] {
            if neighbour < list.count {
                let onto = Command::Move(id, list.get(neighbour, START));
                comparison.answers((30, 0), pools, list, &bytes(&[onto]))?;
            }
        }
    }
    Ok(())
}

/// PUT at each place of a large list. Then WITHDRAW and three MOVEs in one call, in another order each time: each of
/// them comes to each place, and all show in the list that is left, since they are of different events.
fn large(comparison: &mut Comparison, random: &mut Random, pools: &Pools) -> Result<(), String> {
    let mut list = one_below_full(random, pools, LARGE);
    // So that there is room for each event at each place.
    (0..LARGE).for_each(|place| list.set(place, DURATION, &[1 + random.below(FREE_MIN as usize / 2) as u32]));
    let held = Held::by(comparison.caller, &list);
    for place in 0..=LARGE {
        let times = random.pick(&free_times(&list, place, FREE_MIN));
        let put = put(random, pools, &held, times);
        comparison.answers((0, LARGE + 1), pools, &list, &bytes(&[put]))?;
    }
    for place in 0..LARGE {
        let event = |fifths: usize| {
            let place = (place + fifths * LARGE / 5) % LARGE;
            (list.get(place, ID), list.times(place))
        };
        let [(withdrawn, _), (onto_itself, own), (beside, near), (away, _), (_, far)] = [0, 1, 2, 3, 4].map(event);
        let mut commands = [
            Command::Withdraw(withdrawn),
            Command::Move(onto_itself, own.start),
            Command::Move(beside, near.start + 1),
            Command::Move(away, far.end()),
        ];
        let first = place % commands.len();
        commands.rotate_left(first);
        comparison.answers((0, LARGE - 1), pools, &list, &bytes(&commands))?;
    }
    Ok(())
}
