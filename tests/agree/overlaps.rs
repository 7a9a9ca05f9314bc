//! Overlap (02, W-204) of every kind in PUT: 30. Events that touch, and a last one that ends past the window, are put.

use crate::edits::Comparison;
use crate::lists::{List, DURATION_MAX, ID, START, START_END};
use crate::moves;
use crate::overlapped::LIST;
use crate::overlapping::{self, some_places, Neighbours, KINDS, PAST_WINDOW, TOUCHING};
use crate::pools::Pools;
use crate::random::Random;
use crate::scripts::{bytes, Command};
use crate::spaced::each_list;
use crate::tally::{each_kind, Kind};
use crate::times::Times;

const PUT: &str = "PUT";

/// Lists of so many events, and how many of them.
const COUNTS: [(usize, usize); 6] = [(1, 12), (2, 12), (3, 8), (12, 4), (40, 2), (255, 1)];

/// Of lists, PUT and MOVE, which have a group each.
pub fn kinds() -> Vec<Kind> {
    let overlaps = KINDS.map(|(kind, _)| kind);
    let mut all = Vec::new();
    for by in [LIST, PUT, moves::MOVE] {
        all.extend(each_kind(by, overlaps.into_iter().chain([TOUCHING, PAST_WINDOW])));
    }
    all.extend(each_kind(moves::MOVE, moves::PLACES));
    all
}

pub fn run(comparison: &mut Comparison) -> Result<(), String> {
    let random = &mut comparison.groups.begin("overlaps");
    let pools = Pools::of_lengths(random, 300, 200);
    each_list(random, &pools, &COUNTS, |random, list| {
        puts(comparison, random, &pools, list)?;
        past_window(comparison, random, &pools, list)
    })
}

/// PUT of every kind at one place; and at others one that fills the free time, one that touches on either side, and
/// ones that go on for a second more there.
fn puts(comparison: &mut Comparison, random: &mut Random, pools: &Pools, list: &List) -> Result<(), String> {
    let place = random.below(list.count);
    for (kind, times) in Neighbours::of(list, place).overlaps(random) {
        let put = Command::Put(overlapping::event(random, pools, list, times));
        comparison.answers((30, 0), pools, list, &bytes(&[put]))?;
        // Behind an edit that is carried out, and struck.
        let withdraw = Command::Withdraw(list.get(list.count - 1 - place, ID));
        comparison.alike(pools, list, &bytes(&[withdraw, put]))?;
        comparison.answers((0, list.count), pools, list, &bytes(&[put, Command::Undo]))?;
        comparison.tally.kind((PUT, kind));
    }
    for place in some_places(random, list.count + 1) {
        let from = if place == 0 { 0 } else { list.times(place - 1).end() };
        let to = if place == list.count { from + DURATION_MAX } else { list.times(place).start };
        let start = from.max(to.saturating_sub(random.pick(&[1, 2, 100])));
        let end = to.min(from + random.pick(&[1, 2, 100]));
        let free = [(from, to), (from, end), (start, to)];
        for times in free.into_iter().filter_map(|(start, end)| Times::between(start, end)) {
            let put = Command::Put(overlapping::event(random, pools, list, times));
            comparison.answers((0, list.count + 1), pools, list, &bytes(&[put]))?;
            comparison.tally.kind((PUT, TOUCHING));
        }
        let before = (place > 0).then(|| Times::between(from - 1, to)).flatten();
        let behind = (place < list.count).then(|| Times::between(from, to + 1)).flatten();
        for times in [before, behind].into_iter().flatten() {
            let put = Command::Put(overlapping::event(random, pools, list, times));
            comparison.answers((30, 0), pools, list, &bytes(&[put]))?;
        }
    }
    Ok(())
}

/// A last event that ends past the window is taken, in the list and by PUT. A start past the window is refused for
/// that, also where the last event goes on.
fn past_window(comparison: &mut Comparison, random: &mut Random, pools: &Pools, list: &List) -> Result<(), String> {
    for duration in [2, 3_600, DURATION_MAX] {
        let last = Times { start: START_END - 1, duration };
        if list.times(list.count - 1).end() > last.start {
            return Ok(());
        }
        let put = overlapping::event(random, pools, list, last);
        comparison.answers((0, list.count + 1), pools, list, &bytes(&[Command::Put(put)]))?;
        comparison.tally.kind((PUT, PAST_WINDOW));
        let ending_past = list.with_event(put, false);
        comparison.answers((0, ending_past.count), pools, &ending_past, &[])?;
        comparison.tally.kind((LIST, PAST_WINDOW));

        let mut over = overlapping::event(random, pools, &ending_past, last);
        over[START] = START_END;
        comparison.answers((5, 0), pools, &ending_past, &bytes(&[Command::Put(over)]))?;
        comparison.tally.precedence(("PUT", 5, 30));
        let over = Command::Move(list.get(0, ID), START_END);
        comparison.answers((5, 0), pools, &ending_past, &bytes(&[over]))?;
        comparison.tally.precedence(("MOVE", 5, 30));
    }
    Ok(())
}
