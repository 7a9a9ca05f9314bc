//! Lists that are unsound, of every cause: 12, and 31 where there is no base day left, which comes first (02, W-205).

use super::base_days;
use super::case::Case;
use super::causes::{EACH_SOUND, LEAVING_SOUND, STAYING_SOUND, UNSOUND};
use super::comparison::Comparison;
use super::day_lists::{by_days, parts};
use crate::lists::{Behind, List, ID, NUMBERS};
use crate::other::{self, Lent};
use crate::overlapping;
use crate::pools::Pools;
use crate::random::Random;
use crate::unsound::{tagged, unsound};
use crate::unsound_causes::{FAR_APART_EQUAL, NEIGHBOURS_EQUAL, TAGGED, TOO_MANY};

pub fn run(comparison: &mut Comparison) -> Result<(), String> {
    let random = &mut comparison.groups.begin("refusals");
    let most = comparison.caller.sizes().events;
    // Of more than one descriptor each.
    let pools = &Pools::of_lengths(random, 900, 700);
    for (count, times) in [(2, 12), (1, 6), (3, 12), (12, 20), (100, 2), (most - 1, 1)] {
        for _ in 0..times {
            each_cause(comparison, random, pools, count)?;
        }
    }
    // Sound but for their count; if the caller is cable, broadcast takes eight times its most.
    for count in [most + 1, most + 2, 2 * most, 8 * most, 8 * most + 1] {
        let leaving = random.below(most);
        let list = &by_days(random, pools, leaving, count - leaving);
        refused(comparison, random, pools, (TOO_MANY, list))?;
    }
    equal_ids(comparison, random, pools)
}

/// A list of so many events, some of which leave, made unsound in each way.
fn each_cause(comparison: &mut Comparison, random: &mut Random, pools: &Pools, count: usize) -> Result<(), String> {
    let leaving = random.below(count + 1);
    let more = random.below(14);
    let list = by_days(random, pools, leaving, count - leaving);
    let list = &list.in_buffer(random, NUMBERS * count + more, Behind::Any);
    let mut lists = unsound(comparison.caller, random, pools, list);
    let place = random.below(count);
    lists.extend(overlapping::lists(random, pools, list, place));
    lists.extend(tagged(random, pools, list).into_iter().map(|list| (TAGGED, list)));
    lists.iter().try_for_each(|(cause, list)| refused(comparison, random, pools, (cause, list)))
}

/// Equal ids at every two places, on both sides of midnight and across it.
fn equal_ids(comparison: &mut Comparison, random: &mut Random, pools: &Pools) -> Result<(), String> {
    let list = by_days(random, pools, 5, 7);
    for second in 1..list.count {
        for first in 0..second {
            let equal = &list.with(second, ID, &[list.get(first, ID)]);
            let cause = if second == first + 1 { NEIGHBOURS_EQUAL } else { FAR_APART_EQUAL };
            refused(comparison, random, pools, (cause, equal))?;
        }
    }
    Ok(())
}

/// 12 of a list that is unsound for this cause, and 31 if no base day is left.
fn refused(
    comparison: &mut Comparison,
    random: &mut Random,
    pools: &Pools,
    (cause, list): (&'static str, &List),
) -> Result<(), String> {
    let case = Case { pools, list, base_day: base_days::legal(random) };
    let with_cause = |fault: String| format!("{fault}\n  unsound: {cause}");
    comparison.refuses(12, case).map_err(with_cause)?;
    comparison.tally.kind((UNSOUND, cause));
    let base_day = base_days::refused(random);
    comparison.refuses(31, Case { base_day, ..case }).map_err(with_cause)?;
    comparison.tally.precedence((cause, 31, 12));
    count_parts(comparison, case);
    Ok(())
}

/// Which part of the list, by itself, would be sound.
fn count_parts(comparison: &mut Comparison, case: Case) {
    let Lent { list, count, day, series } = case.lent();
    let is_sound = |mut records: Vec<u32>| {
        let count = records.len() / NUMBERS;
        other::roll(comparison.caller, &mut records, count, day, series, 0).number == 0
    };
    if let Some([leaving, staying]) = parts(list, count).map(|parts| parts.map(is_sound)) {
        let kinds = [
            (STAYING_SOUND, staying && !leaving),
            (LEAVING_SOUND, leaving && !staying),
            (EACH_SOUND, leaving && staying),
        ];
        comparison.tally.came_up(UNSOUND, &kinds);
    }
}
