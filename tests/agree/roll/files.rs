//! Build before and after a roll (02, W-205): "the k-th section of every segment holds the same event bytes as the k-th
//! of the segment eight indexes later did before; past 511 none." Where Build wrote before, it does not say 10 after.

use super::case::Case;
use super::comparison::Comparison;
use super::file_lists::each_given;
use super::outcome::Outcome;
use super::shifted::{Held, DAY_SEGMENTS};
use super::written::said;
use crate::build::Request;
use crate::other::{self, Built};
use crate::random::Random;
use crate::read::Given;
use crate::tally::{each_kind, Kind};

const BUILD: &str = "Build before and after a roll";

const ONE_IDENTITY: &str = "one identity";
const TWO_IDENTITIES: &str = "two identities";
const NONE_LEFT: &str = "none left";
const SOME_LEFT: &str = "some left";
const ALL_LEFT: &str = "all left";
const EIGHT_SECTIONS: &str = "a segment of eight sections";
const LAST_SEGMENT: &str = "the last segment";
const TABLE_EDGE: &str = "a segment that comes into the table before";
const TABLE_FEWER: &str = "a table fewer";
const LONGER: &str = "a longer file";
const DATE_CARRY: &str = "base days 255 and 256";
const UNPACKABLE: &str = "unpackable before and after";
const UNPACKABLE_LEFT: &str = "unpackable before alone";

/// Where a section has last_table_id.
const LAST_TABLE_ID: usize = 13;

pub fn kinds() -> Vec<Kind> {
    let events = [NONE_LEFT, SOME_LEFT, ALL_LEFT, EIGHT_SECTIONS, LAST_SEGMENT, TABLE_EDGE, TABLE_FEWER, LONGER];
    let others = [ONE_IDENTITY, TWO_IDENTITIES, DATE_CARRY, UNPACKABLE, UNPACKABLE_LEFT];
    each_kind(BUILD, events.into_iter().chain(others))
}

pub fn run(comparison: &mut Comparison) -> Result<(), String> {
    let random = &mut comparison.groups.begin("files");
    let caller = comparison.caller;
    each_given(caller, random, |random, given| before_and_after(comparison, random, given))
}

fn before_and_after(comparison: &mut Comparison, random: &mut Random, given: &Given) -> Result<(), String> {
    let case = Case { pools: &given.pools, list: &given.list, base_day: given.base_day };
    let other_identity = Request::legal(random, 0).identity;
    let identity = random.pick(&[given.identity, other_identity]);
    let Outcome { rolled, left } = comparison.alike(case)?;
    let next = Case { list: &left, base_day: rolled.base_day, ..case };
    let fault = match (comparison.written(case, given.identity), comparison.written(next, identity)) {
        (Ok(before), Ok(after)) => match is_shifted(comparison, case, next, &before, &after) {
            Ok(()) => {
                let is_one = identity == given.identity;
                comparison.tally.came_up(BUILD, &[(ONE_IDENTITY, is_one), (TWO_IDENTITIES, !is_one)]);
                return Ok(());
            }
            Err(fault) => format!("and Build after it {fault}"),
        },
        (Err(Built { number: 10, .. }), after) => match (later_unpackable(comparison, case), after) {
            (Some(index), Err(Built { number: 10, value })) if value == index => {
                comparison.tally.kind((BUILD, UNPACKABLE));
                return Ok(());
            }
            (None, Ok(_)) => {
                comparison.tally.kind((BUILD, UNPACKABLE_LEFT));
                return Ok(());
            }
            (later, after) => format!("and Build {} after it; unpackable is {later:?}", said(&after)),
        },
        (before, after) => format!("and Build {} before it, and {} after it", said(&before), said(&after)),
    };
    Err(comparison.describe(&fault, case))
}

/// The two files, before a roll and after it, and what of them comes up.
fn is_shifted(comparison: &mut Comparison, case: Case, next: Case, before: &[u8], after: &[u8]) -> Result<(), String> {
    let was = Held::of(before)?;
    Held::of(after)?.is_of_day_after(&was)?;
    let (count, left) = (case.list.count, next.list.count);
    let comes_into_table_before = |index: usize| index % 32 < DAY_SEGMENTS && was.sections(index) > 0;
    let kinds = [
        (NONE_LEFT, count > 0 && left == count),
        (SOME_LEFT, left > 0 && left < count),
        (ALL_LEFT, count > 0 && left == 0),
        (EIGHT_SECTIONS, (DAY_SEGMENTS..512).any(|index| was.sections(index) == 8)),
        (LAST_SEGMENT, was.sections(511) > 0),
        (TABLE_EDGE, (32..512).any(comes_into_table_before)),
        (TABLE_FEWER, after[LAST_TABLE_ID] < before[LAST_TABLE_ID]),
        (LONGER, after.len() > before.len()),
        (DATE_CARRY, case.base_day == 255 && left > 0),
    ];
    comparison.tally.came_up(BUILD, &kinds);
    Ok(())
}

/// The index that the lowest unpackable segment behind the first day has after a roll, if there is one.
fn later_unpackable(comparison: &Comparison, case: Case) -> Option<usize> {
    let plan = other::plan(comparison.caller, &case.lent());
    plan[DAY_SEGMENTS..].iter().position(|count| *count == 255)
}
