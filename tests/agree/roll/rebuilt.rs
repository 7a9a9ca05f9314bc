//! Rebuild of a list that was rolled, from the file before: it writes what Build does under the versions that it chose,
//! and each is the one before or the next.

use super::case::Case;
use super::comparison::Comparison;
use super::file_lists::each_given;
use super::outcome::Outcome;
use super::written::in_output;
use crate::other::{self, Identity, Previous, TABLE_IDS};
use crate::read::Given;
use crate::tally::{each_kind, Kind};

const REBUILD: &str = "Rebuild after a roll";
const KEPT: &str = "a table that keeps its version";
const RAISED: &str = "a table with the next version";

/// Where a section has last_table_id.
const LAST_TABLE_ID: usize = 13;

pub fn kinds() -> Vec<Kind> {
    each_kind(REBUILD, [KEPT, RAISED])
}

pub fn run(comparison: &mut Comparison) -> Result<(), String> {
    let random = &mut comparison.groups.begin("rebuilt");
    let caller = comparison.caller;
    each_given(caller, random, |_, given| rebuilt(comparison, given))
}

/// Of a list that Build writes.
fn rebuilt(comparison: &mut Comparison, given: &Given) -> Result<(), String> {
    let case = Case { pools: &given.pools, list: &given.list, base_day: given.base_day };
    let Ok(before) = comparison.written(case, given.identity) else {
        return Ok(());
    };
    let Outcome { rolled, left } = comparison.alike(case)?;
    let next = Case { list: &left, base_day: rolled.base_day, ..case };
    let (subject, caller) = (comparison.subject, comparison.caller);
    let previous = Previous { file: &before, base_day: case.base_day };
    let outcome = in_output(|output| (subject.rebuild)(caller, previous, &next.lent(), next.base_day, output));
    let fault = match outcome {
        Err(built) => format!("and Rebuild answered {built:?} after it"),
        Ok(file) => {
            let reading = other::check(caller, &file, next.base_day);
            if reading.number != 0 {
                format!("and Rebuild after it left a file that is refused: {reading:?}")
            } else if !is_next(given.identity, reading.identity, &file) {
                format!("and Rebuild after it chose {:?}; before it was {:?}", reading.identity, given.identity)
            } else if comparison.written(next, reading.identity).as_ref() != Ok(&file) {
                format!("and Rebuild after it left another file than Build does under {:?}", reading.identity)
            } else {
                count(comparison, given.identity, reading.identity, &file);
                return Ok(());
            }
        }
    };
    Err(comparison.describe(&fault, case))
}

/// The version before and the one now of each table of a rebuilt file. No roll adds a table.
fn versions(before: Identity, now: Identity, file: &[u8]) -> impl Iterator<Item = (u8, u8)> {
    let tables = usize::from(file[LAST_TABLE_ID] - TABLE_IDS.start()) + 1;
    before.versions.into_iter().zip(now.versions).take(tables)
}

/// Whether service, stream and network are as before, and each version is as before or the next.
fn is_next(before: Identity, now: Identity, file: &[u8]) -> bool {
    let may_be = |(before, now): (u8, u8)| now == before || now == (before + 1) % 32;
    before.triplet == now.triplet && versions(before, now, file).all(may_be)
}

fn count(comparison: &mut Comparison, before: Identity, now: Identity, file: &[u8]) {
    for (before, now) in versions(before, now, file) {
        comparison.tally.kind((REBUILD, if now == before { KEPT } else { RAISED }));
    }
}
