//! MOVE and overlap (02, W-204): an event is compared with all others, and with its own duration.

use crate::edits::Comparison;
use crate::lists::{List, DURATION, DURATION_MAX, ID, START_END};
use crate::overlapping::{self, some_places, Neighbours, PAST_WINDOW, TOUCHING};
use crate::pools::Pools;
use crate::random::Random;
use crate::scripts::{bytes, Command};
use crate::spaced::each_list;
use crate::times::Times;

pub const MOVE: &str = "MOVE";

const ONTO_ITSELF: &str = "onto its own start";
const OVER_ITSELF: &str = "over its own time";
const UP_TO_ITSELF: &str = "up to its own time";
const PAST_NEIGHBOUR: &str = "past a neighbour";
const OVER_ITSELF_INTO_ANOTHER: &str = "over its own time into another";

/// Where an event is moved to. It stays clear of the others, where nothing else is said.
pub const PLACES: [&str; 5] = [ONTO_ITSELF, OVER_ITSELF, UP_TO_ITSELF, PAST_NEIGHBOUR, OVER_ITSELF_INTO_ANOTHER];

/// Lists of so many events, and how many of them.
const COUNTS: [(usize, usize); 6] = [(1, 8), (2, 16), (3, 12), (12, 6), (40, 2), (255, 1)];

pub fn run(comparison: &mut Comparison) -> Result<(), String> {
    let random = &mut comparison.groups.begin("moves");
    let pools = Pools::of_lengths(random, 300, 200);
    each_list(random, &pools, &COUNTS, |random, list| {
        for place in some_places(random, list.count) {
            near(comparison, random, &pools, list, place)?;
            past(comparison, &pools, list, place)?;
        }
        overlapping(comparison, random, &pools, list)?;
        past_window(comparison, &pools, list)
    })
}

/// The event onto its own start, over its own time and up to it, up to its neighbours, and into them by a second.
fn near(
    comparison: &mut Comparison,
    random: &mut Random,
    pools: &Pools,
    list: &List,
    place: usize,
) -> Result<(), String> {
    let Neighbours { before, own, behind } = Neighbours::of(list, place);
    let by = 1 + random.below(own.duration as usize) as u32;
    let mut starts = vec![own.start, own.start + by, own.end(), own.start.saturating_sub(by)];
    starts.extend(own.start.checked_sub(own.duration));
    if let Some(before) = before {
        starts.extend([before.end(), before.end() - 1]);
    }
    if let Some(behind) = behind {
        let touching = behind.start - own.duration;
        starts.extend([touching, touching + 1]);
    }
    starts.into_iter().try_for_each(|start| to(comparison, pools, list, place, start))
}

/// The event past each of its neighbours: just behind it, and just before the next one.
fn past(comparison: &mut Comparison, pools: &Pools, list: &List, place: usize) -> Result<(), String> {
    let own = list.times(place);
    let beyond = [place.wrapping_sub(2), place + 2].map(|beyond| (beyond < list.count).then(|| list.times(beyond)));
    let Neighbours { before, behind, .. } = Neighbours::of(list, place);
    let starts = [
        behind.map(Times::end),
        beyond[0].map(Times::end),
        before.and_then(|before| before.start.checked_sub(own.duration)),
        beyond[1].and_then(|beyond| beyond.start.checked_sub(own.duration)),
    ];
    starts.into_iter().flatten().try_for_each(|start| to(comparison, pools, list, place, start))
}

/// MOVE of the event in this place to this start: 30 exactly if it overlaps one of the others.
fn to(comparison: &mut Comparison, pools: &Pools, list: &List, place: usize, start: u32) -> Result<(), String> {
    if start >= START_END {
        return Ok(());
    }
    let own = list.times(place);
    let moved = Times { start, ..own };
    let others: Vec<_> = (0..list.count).filter(|other| *other != place).map(|other| list.times(other)).collect();
    let overlaps = others.iter().any(|other| moved.overlaps(*other));
    let answer = if overlaps { (30, 0) } else { (0, list.count) };
    comparison.answers(answer, pools, list, &bytes(&[Command::Move(list.get(place, ID), start)]))?;
    if overlaps {
        if moved.overlaps(own) {
            comparison.tally.kind((MOVE, OVER_ITSELF_INTO_ANOTHER));
        }
        return Ok(());
    }
    let touches = others.iter().any(|other| moved.start == other.end() || moved.end() == other.start);
    let passes = others.iter().any(|other| (other.start < own.start) != (other.start < moved.start));
    let kinds = [
        (ONTO_ITSELF, moved == own),
        (OVER_ITSELF, moved != own && moved.overlaps(own)),
        (UP_TO_ITSELF, moved.start == own.end() || moved.end() == own.start),
        (PAST_NEIGHBOUR, passes),
        (TOUCHING, touches),
    ];
    comparison.tally.came_up(MOVE, &kinds);
    Ok(())
}

/// An event of the duration that it takes, behind all others, moved over one of them: of every kind.
fn overlapping(comparison: &mut Comparison, random: &mut Random, pools: &Pools, list: &List) -> Result<(), String> {
    let place = random.below(list.count);
    let behind_all = list.times(list.count - 1).end() + random.below(3) as u32;
    if behind_all >= START_END {
        return Ok(());
    }
    for (kind, times) in Neighbours::of(list, place).overlaps(random) {
        let event = overlapping::event(random, pools, list, Times { start: behind_all, ..times });
        let list = list.with_event(event, false);
        comparison.answers((30, 0), pools, &list, &bytes(&[Command::Move(event[ID], times.start)]))?;
        comparison.tally.kind((MOVE, kind));
    }
    Ok(())
}

/// The last event to the window's last second, past which it goes on.
fn past_window(comparison: &mut Comparison, pools: &Pools, list: &List) -> Result<(), String> {
    let last = list.count - 1;
    let before = if last == 0 { 0 } else { list.times(last - 1).end() };
    for duration in [2, 3_600, DURATION_MAX] {
        if before < START_END {
            let list = list.with(last, DURATION, &[duration]);
            let end = Command::Move(list.get(last, ID), START_END - 1);
            comparison.answers((0, list.count), pools, &list, &bytes(&[end]))?;
            comparison.tally.kind((MOVE, PAST_WINDOW));
        }
    }
    Ok(())
}
