//! Base days: 02, W-205, "31, base day already 65,472 or more". 1 never comes.

use super::case::Case;
use super::comparison::Comparison;
use super::day_lists::by_days;
use crate::lists::{List, NUMBERS};
use crate::pools::Pools;
use crate::random::Random;

/// The first base day that has none after it.
const LAST: u32 = 65_472;

/// A base day that has one after it.
pub fn legal(random: &mut Random) -> u32 {
    let any = random.below(LAST as usize) as u32;
    random.pick(&[any, any, 0, LAST - 1])
}

/// One that has none.
pub fn refused(random: &mut Random) -> u32 {
    let beyond = random.number().max(LAST);
    random.pick(&[LAST, LAST, LAST + 1, 65_535, 65_536, beyond, u32::MAX])
}

pub fn run(comparison: &mut Comparison) -> Result<(), String> {
    let random = &mut comparison.groups.begin("base days");
    for (leaving, staying) in [(0, 0), (1, 0), (0, 1), (2, 3)] {
        let pools = &Pools::of_lengths(random, 60, 40);
        let list = &by_days(random, pools, leaving, staying);
        let short = &list.with_count(list.numbers.len() / NUMBERS + 1);
        each(comparison, random, pools, [list, short])?;
    }
    Ok(())
}

/// A list that is sound, and one that is not, under base days on both sides of the last, and with high bits.
fn each(comparison: &mut Comparison, random: &mut Random, pools: &Pools, lists: [&List; 2]) -> Result<(), String> {
    let [sound, unsound] = lists;
    let any = legal(random);
    for base_day in [0, 1, 255, 256, 32_767, 32_768, any, LAST - 2, LAST - 1] {
        comparison.rolls(Case { pools, list: sound, base_day })?;
        comparison.refuses(12, Case { pools, list: unsound, base_day })?;
    }
    let bits = (16..32).map(|bit| any | 1 << bit);
    for base_day in bits.chain([LAST, LAST + 1, LAST + 2, 65_535, 65_536, u32::MAX - 1, u32::MAX]) {
        for list in lists {
            comparison.refuses(31, Case { pools, list, base_day })?;
        }
    }
    Ok(())
}
