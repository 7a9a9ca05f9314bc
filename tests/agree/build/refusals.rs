//! Base days, versions (02, W-208) and lists that are refused, and those at the limits that are not.

use super::comparison::Comparison;
use super::request::{Request, BASE_DAY_MAX, VERSION_MAX};
use super::segments::nearby;
use crate::at_limits::at_limits;
use crate::lineup::{Lineup, SEGMENT_SECONDS};
use crate::lists::{rising, List, START};
use crate::other::Caller;
use crate::pools::Pools;
use crate::random::Random;
use crate::tally::{each_kind, Kind};
use crate::unsound::unsound;

const TABLE_SECONDS: u32 = 32 * SEGMENT_SECONDS;

const ABOVE: &str = "a version above 31";
const LEGAL: &str = "a legal version";
const PRESENT: &str = "of a table that the file has";
const ABSENT: &str = "of a table that the file has not";

pub fn version_kinds() -> Vec<Kind> {
    [ABOVE, LEGAL].map(|limit| each_kind(limit, [PRESENT, ABSENT])).concat()
}

pub fn run(comparison: &mut Comparison) -> Result<(), String> {
    let random = &mut comparison.groups.begin("refusals");
    for _ in 0..3 {
        let (pools, list) = packable(comparison.caller, random);
        base_days(comparison, random, &pools, &list)?;
        versions(comparison, random, &pools, &list)?;
    }
    let most = comparison.caller.sizes().events;
    for (day, series) in [(0, 0), (0, 40), (40, 0), (300, 200)] {
        let pools = Pools::of_lengths(random, day, series);
        for (count, times) in [(1, 6), (2, 6), (12, 6), (most / 7, 2), (most, 1)] {
            for _ in 0..times {
                kinds(comparison, random, &pools, count)?;
            }
        }
        for count in [most + 1, 2 * most, 8 * most] {
            let too_many = List::sound(random, &pools, count, 6 * count + 6);
            comparison.unsound(random, &pools, &too_many)?;
        }
    }
    Ok(())
}

/// Events in a few segments.
fn packable(caller: Caller, random: &mut Random) -> (Pools, List) {
    let mut lineup = Lineup::new();
    for index in rising(random, 4, 100) {
        nearby(caller, random, &mut lineup, index as usize);
    }
    lineup.lend(random)
}

fn base_days(comparison: &mut Comparison, random: &mut Random, pools: &Pools, list: &List) -> Result<(), String> {
    let need = comparison.need(pools, list);
    let legal = random.below(BASE_DAY_MAX as usize + 1) as u32;
    let bits = (16..32).map(|bit| legal | 1 << bit);
    for base_day in bits.chain([65_473, 65_474, 65_535, 65_536, u32::MAX - 1, u32::MAX]) {
        let request = Request { base_day, ..Request::legal(random, need) };
        comparison.answers((1, 0), pools, list, request)?;
    }
    for base_day in [0, 1, 255, 256, legal, BASE_DAY_MAX - 1, BASE_DAY_MAX] {
        let request = Request { base_day, ..Request::legal(random, need) };
        comparison.answers((0, need), pools, list, request)?;
    }
    Ok(())
}

/// Every version in some table, and those at the limit in every table, whether the file has it or not.
fn versions(comparison: &mut Comparison, random: &mut Random, pools: &Pools, list: &List) -> Result<(), String> {
    let need = comparison.need(pools, list);
    let last_table = (list.get(list.count - 1, START) / TABLE_SECONDS) as usize;
    let every_version = (0..=u8::MAX).map(|version| (random.below(16), version)).collect::<Vec<_>>();
    let every_table = (0..16).flat_map(|table| [VERSION_MAX, 32, 33, 64, 128, 255].map(|version| (table, version)));
    for (table, version) in every_version.into_iter().chain(every_table) {
        let mut request = Request::legal(random, need);
        request.identity.versions[table] = version;
        let answer = if version > VERSION_MAX { (2, 0) } else { (0, need) };
        comparison.answers(answer, pools, list, request)?;
        let limit = if version > VERSION_MAX { ABOVE } else { LEGAL };
        comparison.tally.kind((limit, if table > last_table { ABSENT } else { PRESENT }));
    }
    Ok(())
}

/// Sound lists with a value at its limit, which are not refused for that, and unsound ones of every kind.
fn kinds(comparison: &mut Comparison, random: &mut Random, pools: &Pools, count: usize) -> Result<(), String> {
    let numbers = 6 * count + random.below(14);
    let list = List::sound(random, pools, count, numbers);
    for list in at_limits(random, pools, &list) {
        comparison.cuts(random, pools, &list)?;
    }
    for (what, unsound) in unsound(comparison.caller, random, pools, &list) {
        let room = random.pick(&[0, 18, 5_000]);
        let outcome = comparison.answers((12, 0), pools, &unsound, Request::legal(random, room));
        outcome.map_err(|fault| format!("{fault}\n  unsound: {what}"))?;
    }
    Ok(())
}
