//! Lists that are unsound, of every cause: 12, at a start where one more event fits, and also at one that is taken,
//! past the last segment or in a full segment, where a sound list has none.

use super::case::{Case, SEGMENT_SECONDS};
use super::causes::{BEFORE_SOUND, FREE, FULL, PARTS, PAST, SEGMENT_SOUND, TAKEN};
use super::comparison::Comparison;
use super::parts::{of_segment, up_to_start};
use crate::lineup::Lineup;
use crate::lists::{rising, List, NUMBERS, START, START_END};
use crate::other::{chain_room_halved, Caller, Lent};
use crate::overlapping;
use crate::pools::Pools;
use crate::random::Random;
use crate::unsound::{tagged, unsound};
use crate::unsound_causes::{TAGGED, TOO_MANY};

/// The full segment, and one without events.
const FULL_INDEX: usize = 100;
const EMPTY_INDEX: u32 = 300;

pub fn run(comparison: &mut Comparison) -> Result<(), String> {
    let random = &mut comparison.groups.begin("refusals");
    let caller = comparison.caller;
    for (others, times) in [(2, 12), (4, 6), (12, 6), (100, 2)] {
        for _ in 0..times {
            let (pools, list) = &with_full_segment(caller, random, others);
            let mut lists = unsound(caller, random, pools, list);
            let place = random.below(list.count);
            lists.extend(overlapping::lists(random, pools, list, place));
            lists.extend(tagged(random, pools, list).into_iter().map(|list| (TAGGED, list)));
            lists.iter().try_for_each(|(cause, list)| refused(comparison, random, pools, cause, list))?;
        }
    }
    // Sound but for their count; if the caller is cable, broadcast takes eight times its most.
    let most = caller.sizes().events;
    for count in [most + 1, most + 2, 2 * most, 8 * most] {
        let (pools, list) = &with_full_segment(caller, random, count - 8);
        refused(comparison, random, pools, TOO_MANY, list)?;
    }
    Ok(())
}

/// A sound list, but for its count, with eight full sections in one segment and so many events in others.
fn with_full_segment(caller: Caller, random: &mut Random, others: usize) -> (Pools, List) {
    let mut lineup = Lineup::new();
    let before = random.below(others + 1);
    let full = SEGMENT_SECONDS * FULL_INDEX as u32;
    for start in rising(random, before, full as usize) {
        lineup.event(random, start, 2);
    }
    lineup.segment(random, FULL_INDEX, &[caller.sizes().chain_max(); 8]);
    let behind = SEGMENT_SECONDS * (EMPTY_INDEX + 1);
    for start in rising(random, others - before, (START_END - behind) as usize) {
        lineup.event(random, behind + start, 2);
    }
    lineup.lend(random)
}

/// 12 of a list that is unsound for this cause, wherever the start is.
fn refused(
    comparison: &mut Comparison,
    random: &mut Random,
    pools: &Pools,
    cause: &'static str,
    list: &List,
) -> Result<(), String> {
    let seconds = SEGMENT_SECONDS as usize;
    let free = SEGMENT_SECONDS * EMPTY_INDEX + random.below(seconds) as u32;
    let held = list.count.min(list.numbers.len() / NUMBERS);
    let taken = list.get(random.below(held), START);
    let any = random.number().max(START_END);
    let past = random.pick(&[START_END, START_END, any, u32::MAX]);
    let full = SEGMENT_SECONDS * FULL_INDEX as u32 + random.below(seconds) as u32;
    for (by, start) in [(FREE, free), (TAKEN, taken), (PAST, past), (FULL, full)] {
        let case = Case { pools, list, start };
        comparison.refuses(case).map_err(|fault| format!("{fault}\n  unsound: {cause}"))?;
        comparison.tally.kind((by, cause));
        count_parts(comparison, case);
    }
    Ok(())
}

/// Which part of the list, by itself, would be sound.
fn count_parts(comparison: &mut Comparison, case: Case) {
    let lent = case.lent();
    let is_sound = |records: Option<Vec<u32>>| {
        records.is_some_and(|list| {
            let part = Lent { list: &list, count: list.len() / NUMBERS, ..lent };
            chain_room_halved(comparison.caller, &part, case.start).number == 0
        })
    };
    let kinds = [
        (SEGMENT_SOUND, is_sound(of_segment(&lent, case.start))),
        (BEFORE_SOUND, is_sound(up_to_start(&lent, case.start))),
    ];
    comparison.tally.came_up(PARTS, &kinds);
}
