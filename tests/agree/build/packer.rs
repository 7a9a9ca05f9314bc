//! Demand 3 by trying: of all ways to cut a segment's events into sections that fit, none has fewer sections than the
//! file, and none holds more events in its first k sections. 10 comes exactly if no way has at most eight.

use super::comparison::Comparison;
use super::request::Request;
use super::segments::with_neighbours;
use crate::other::{Caller, EVENT_FRONT};
use crate::random::Random;

const SECTIONS_MAX: usize = 8;

pub fn run(comparison: &mut Comparison) -> Result<(), String> {
    let random = &mut comparison.groups.begin("packer");
    let mut unpackable = 0;
    let mut by_sections = [0; SECTIONS_MAX + 1];
    for _ in 0..3_000 {
        match segment(comparison, random)? {
            Some(sections) => by_sections[sections] += 1,
            None => unpackable += 1,
        }
    }
    let tried = unpackable > 0 && by_sections[1..].iter().all(|times| *times > 0);
    tried.then_some(()).ok_or_else(|| format!("the packer's segments have {by_sections:?} sections, {unpackable} none"))
}

/// A segment of a few events, compared with every way to cut it. How many sections it has, if it is packable.
fn segment(comparison: &mut Comparison, random: &mut Random) -> Result<Option<usize>, String> {
    let sizes = comparison.caller.sizes();
    let mut lengths = chain_lengths(comparison.caller, random);
    if random.one_in(20) {
        let place = random.below(lengths.len());
        lengths[place] = sizes.chain_max() + 1;
    }
    let index = random.pick(&[0, 1, 31, 32, 511]);
    let (pools, list) = with_neighbours(comparison.caller, random, index, &lengths);

    let ways: Vec<_> = ways(sizes.room(), &lengths).into_iter().filter(|way| way.len() <= SECTIONS_MAX).collect();
    let held = comparison.held(random, &pools, &list, index)?;
    let fault = match &held {
        None if ways.is_empty() => {
            comparison.answers((10, index), &pools, &list, Request::legal(random, 0))?;
            return Ok(None);
        }
        None => "refused, and there is a way".to_string(),
        Some(held) if !ways.contains(held) => format!("cut as {held:?}, which is no way"),
        Some(held) => match ways.iter().find(|way| is_better(way, held)) {
            None => return Ok(Some(held.len())),
            Some(way) => format!("cut as {held:?}, and {way:?} is better"),
        },
    };
    Err(format!("segment {index} with chains of {lengths:?} is {fault}"))
}

/// Chains of up to twelve events: of any length, or of such lengths that sections are often filled to the last byte.
fn chain_lengths(caller: Caller, random: &mut Random) -> Vec<usize> {
    let sizes = caller.sizes();
    let events = 1 + random.below(12);
    if random.one_in(3) {
        // Quarters, halves and the whole of what a section has for its events, and a byte more or less.
        let (whole, half, quarter) = (sizes.room(), sizes.room() / 2, sizes.room() / 4);
        let fractions = [quarter, quarter + 1, quarter + 2, half - 1, half, half + 1, whole];
        return (0..events).map(|_| random.pick(&fractions) - EVENT_FRONT).collect();
    }
    let longest = sizes.chain_max();
    let least = random.pick(&[2, longest / 8, longest / 8, longest / 4, longest / 2]);
    let most = random.pick(&[longest / 2 + 60, longest * 3 / 4, longest, longest]);
    (0..events).map(|_| least + random.below(most - least + 1)).collect()
}

/// Every way to cut the events into sections with so many bytes for them: how many events each section has.
fn ways(room: usize, lengths: &[usize]) -> Vec<Vec<usize>> {
    if lengths.is_empty() {
        return vec![vec![]];
    }
    let mut all = Vec::new();
    let mut bytes = 0;
    for (place, length) in lengths.iter().enumerate() {
        bytes += EVENT_FRONT + length;
        if bytes > room {
            break;
        }
        for rest in ways(room, &lengths[place + 1..]) {
            all.push([vec![place + 1], rest].concat());
        }
    }
    all
}

/// Whether the way has fewer sections, or more events in its first k sections for some k.
fn is_better(way: &[usize], held: &[usize]) -> bool {
    let first = |cuts: &[usize], k: usize| cuts.iter().take(k).sum::<usize>();
    way.len() < held.len() || (1..=SECTIONS_MAX).any(|k| first(way, k) > first(held, k))
}

/// Whether cuts that are early, or sections that are too many, show beside a better way, for the self-check.
pub fn worse_cuts_show() -> bool {
    let ways = ways(Caller::Broadcast.sizes().room(), &[1_000, 1_000, 2_100, 4_000]);
    let shows = |held: &[usize]| ways.iter().any(|way| is_better(way, held));
    !shows(&[2, 1, 1]) && shows(&[1, 2, 1]) && shows(&[2, 1, 0, 1]) && shows(&[1, 1, 1, 1])
}
