//! One event of the list is another than in the previous file: the versions of its tables rise, and no others, unless
//! the last table is another.

use super::case::Case;
use super::changed_lists::{CHANGES, TABLE_SECONDS};
use super::comparison::Comparison;
use super::fates::{Fate, Fates};
use crate::lists::{List, NUMBERS, START};
use crate::other::Previous;
use crate::random::Random;
use crate::read::Given;
use crate::tally::{each_kind, Kind};

const CHANGE: &str = "an event that is changed";
const SAME_LAST: &str = "the last table stays";
const OTHER_LAST: &str = "the last table is another";

pub fn kinds() -> Vec<Kind> {
    let all = CHANGES.map(|(change, _)| change).into_iter().chain([SAME_LAST, OTHER_LAST]);
    each_kind(CHANGE, all)
}

pub fn run(comparison: &mut Comparison) -> Result<(), String> {
    let random = &mut comparison.groups.begin("changes");
    let caller = comparison.caller;
    for _ in 0..60 {
        let given = Given::some(caller, random);
        each(comparison, random, &given)?;
    }
    for segments in [&[(0, 1)][..], &[(0, 3), (40, 2)], &[(31, 4), (32, 4), (33, 1), (511, 1)]].repeat(8) {
        let given = Given::short(caller, random, segments);
        each(comparison, random, &given)?;
    }
    Ok(())
}

/// Each change to some event.
pub fn each(comparison: &mut Comparison, random: &mut Random, given: &Given) -> Result<(), String> {
    let Some(file) = given.built() else {
        return Ok(());
    };
    let bytes = file.bytes();
    let previous = Previous { file: &bytes, base_day: given.base_day };
    for (change, changed) in CHANGES {
        let place = random.below(given.list.count);
        let Some(list) = changed(random, &given.list, place) else {
            continue;
        };
        let wanted = fates_of(&given.list, &list);
        let case = Case { list: &list, ..Case::of(previous, given, 0) };
        let Some(rebuilt) = comparison.rebuilt(case)? else {
            continue;
        };
        if rebuilt.fates != wanted {
            return Err(format!("{change}: left tables {:?}, and not {wanted:?}", rebuilt.fates));
        }
        let last = if last_table(&list) == last_table(&given.list) { SAME_LAST } else { OTHER_LAST };
        comparison.tally.kind((CHANGE, change));
        comparison.tally.kind((CHANGE, last));
    }
    Ok(())
}

/// What becomes of the tables: those with an event that one list alone has are raised; with another last table all
/// are.
fn fates_of(before: &List, now: &List) -> Fates {
    let [last_before, last_now] = [before, now].map(last_table);
    let mut fates: Fates = std::array::from_fn(|table| match (table <= last_before, table <= last_now) {
        (true, true) if last_before == last_now => Fate::Kept,
        (true, true) => Fate::Raised,
        (true, false) => Fate::Gone,
        (false, true) => Fate::New,
        (false, false) => Fate::Absent,
    });
    for (list, other) in [(before, now), (now, before)] {
        for record in records(list).filter(|record| !records(other).any(|same| same == *record)) {
            let fate = &mut fates[(record[START] / TABLE_SECONDS) as usize];
            if *fate == Fate::Kept {
                *fate = Fate::Raised;
            }
        }
    }
    fates
}

fn records(list: &List) -> impl Iterator<Item = &[u32]> {
    list.numbers.chunks(NUMBERS).take(list.count)
}

fn last_table(list: &List) -> usize {
    records(list).last().map_or(0, |last| (last[START] / TABLE_SECONDS) as usize)
}
