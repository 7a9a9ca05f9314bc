//! "Neither answer depends on what stands behind that record": numbers behind the first later record are changed, cut
//! off and added. Nor does it depend on anything of the records in front but their starts.

use super::comparison::Comparison;
use super::shapes::{self, with_starts};
use crate::lists::{List, NUMBERS};
use crate::random::Random;

/// Lists of up to so many records, and how many of them.
const SIZES: [(usize, usize); 4] = [(12, 4_000), (40, 2_000), (300, 200), (2_048, 40)];

pub fn run(comparison: &mut Comparison) -> Result<(), String> {
    let random = &mut comparison.begin("behind");
    for (records, times) in SIZES {
        for _ in 0..times {
            changed(comparison, random, records)?;
        }
    }
    Ok(())
}

/// A start with a later record, in a list of up to so many records.
fn changed(comparison: &mut Comparison, random: &mut Random, records: usize) -> Result<(), String> {
    let count = 1 + random.below(records);
    let starts = random.pick(&shapes::ALL)(random, count);
    let later = random.pick(&starts) as usize;
    if later == 0 {
        return Ok(());
    }
    let start = if random.one_in(2) { later - 1 } else { random.below(later) } as u32;
    let behind = random.below(NUMBERS);
    let list = with_starts(random, &starts, behind);
    let found = comparison.found(&list, start);
    let end = NUMBERS * found.looked;
    if end > list.numbers.len() {
        return comparison.alike(&list, &[start]);
    }
    let more = random.below(3 * NUMBERS);
    let mut lists: Vec<_> = fillings(random).map(|filling| filled(random, &list, end, more, filling)).into();
    lists.push(List { numbers: list.numbers[..end].to_vec(), count });
    lists.push(list.with_count(found.looked));
    lists.push(list.with_count(usize::MAX));
    lists.push(with_starts(random, &starts, behind));
    lists.push(list);
    lists.iter().try_for_each(|list| comparison.finds(found, list, start))
}

/// What stands behind: nothing later, all later, one number, or any.
fn fillings(random: &mut Random) -> [Option<u32>; 4] {
    [Some(0), Some(u32::MAX), Some(random.number()), None]
}

/// The list with other numbers from `end` on, and up to so many more of them; its count is as it was, or takes them in.
fn filled(random: &mut Random, list: &List, end: usize, more: usize, filling: Option<u32>) -> List {
    let mut numbers = list.numbers[..end].to_vec();
    numbers.resize_with(list.numbers.len() + more, || filling.unwrap_or_else(|| random.number()));
    let count = if random.one_in(2) { list.count } else { numbers.len() / NUMBERS };
    List { numbers, count }
}
