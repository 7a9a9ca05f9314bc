//! Base days: another one than the previous file's, and a window that rolled on with its events.

use super::case::Case;
use super::comparison::Comparison;
use super::fates::{Fate, Fates};
use crate::build::BASE_DAY_MAX;
use crate::lists::{List, NUMBERS, START};
use crate::other::Previous;
use crate::random::Random;
use crate::read::{rival, Given};

const DAY_SECONDS: u32 = 86_400;

pub fn run(comparison: &mut Comparison) -> Result<(), String> {
    let random = &mut comparison.groups.begin("base days");
    for _ in 0..30 {
        other_day(comparison, random)?;
    }
    for days in [1, 1, 1, 2, 3, 4, 4, 5, 8, 12, 60, 63].repeat(3) {
        rolled(comparison, random, days)?;
    }
    refused(comparison, random)
}

/// The same list under another base day: the dates of all events are others, and tables without events stay.
fn other_day(comparison: &mut Comparison, random: &mut Random) -> Result<(), String> {
    let last_table = 2 + random.below(3);
    let given = Given::short(comparison.caller, random, &[(3, 2), (32 * last_table, 1)]);
    let file = given.built().expect("a few events are packable").bytes();
    let any = random.below(BASE_DAY_MAX as usize + 1) as u32;
    let base_day = random.pick(&[any, (given.base_day + 1).min(BASE_DAY_MAX), given.base_day.saturating_sub(1), 0]);
    let wanted: Fates = std::array::from_fn(|table| match table {
        _ if table > last_table => Fate::Absent,
        _ if base_day != given.base_day && (table == 0 || table == last_table) => Fate::Raised,
        _ => Fate::Kept,
    });
    let previous = Previous { file: &file, base_day: given.base_day };
    comparison.rebuilt_with(wanted, Case { base_day, ..Case::of(previous, &given, 0) }).map(drop)
}

/// So many days later: events that began before leave, and the others begin as many days earlier. The previous file is
/// Build's or a rival's.
fn rolled(comparison: &mut Comparison, random: &mut Random, days: u32) -> Result<(), String> {
    let mut given = Given::some(comparison.caller, random);
    given.base_day = random.pick(&[0, 49_273, BASE_DAY_MAX - days]);
    let file = if random.one_in(2) { rival(random, &given) } else { given.built().expect("packable") }.bytes();
    let previous = Previous { file: &file, base_day: given.base_day };
    let list = later(&given.list, days);
    let base_day = given.base_day + days;
    comparison.rebuilt(Case { list: &list, base_day, ..Case::of(previous, &given, 0) }).map(drop)
}

fn later(list: &List, days: u32) -> List {
    let taken_off = DAY_SECONDS * days;
    let records = list.numbers.chunks(NUMBERS).take(list.count);
    let mut numbers = records.filter(|record| record[START] >= taken_off).collect::<Vec<_>>().concat();
    numbers.iter_mut().skip(START).step_by(NUMBERS).for_each(|start| *start -= taken_off);
    List { count: numbers.len() / NUMBERS, numbers }
}

/// Base days above the last, the previous one's, the new one and both: 1, with 0. A previous file under a base day that
/// is not its own has no start where it should.
fn refused(comparison: &mut Comparison, random: &mut Random) -> Result<(), String> {
    let mut given = Given::short(comparison.caller, random, &[(0, 2), (33, 2)]);
    given.base_day = 40_000;
    let file = given.built().expect("a few events are packable");
    let bytes = file.bytes();
    let own = Previous { file: &bytes, base_day: given.base_day };
    let case = Case::of(own, &given, bytes.len());
    let bits = (16..32).map(|bit| given.base_day | 1 << bit);
    for above in bits.chain([65_473, 65_474, 65_535, 65_536, u32::MAX - 1, u32::MAX]) {
        let previous = Previous { base_day: above, ..own };
        comparison.answers((1, 0), Case { previous, ..case })?;
        comparison.answers((1, 0), Case { base_day: above, ..case })?;
        comparison.answers((1, 0), Case { previous, base_day: above, ..case })?;
    }
    for other in [0, 39_999, 40_001, BASE_DAY_MAX] {
        let previous = Previous { base_day: other, ..own };
        comparison.answers((24, 0), Case { previous, ..case })?;
        comparison.answers((0, bytes.len()), Case { base_day: other, ..case })?;
    }
    Ok(())
}
