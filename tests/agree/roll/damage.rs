//! Lists with random damage, of which some stay sound: single bits of every number, numbers changed to likely ones, and
//! buffers that are cut anywhere.

use super::base_days;
use super::case::Case;
use super::comparison::Comparison;
use super::day_lists::by_days;
use crate::lists::{List, NUMBERS};
use crate::pools::Pools;
use crate::random::Random;

pub fn run(comparison: &mut Comparison) -> Result<(), String> {
    let random = &mut comparison.groups.begin("damage");
    for (day, series) in [(0, 0), (300, 200)] {
        let pools = &Pools::of_lengths(random, day, series);
        let list = by_days(random, pools, 2, 3);
        for place in 0..list.numbers.len() {
            for bit in 0..32 {
                let mut list = list.clone();
                list.numbers[place] ^= 1 << bit;
                comparison.alike(Case { pools, list: &list, base_day: base_days::legal(random) })?;
            }
        }
        for _ in 0..6_000 {
            changed(comparison, random, pools)?;
        }
        for _ in 0..4 {
            small_buffers(comparison, random, pools)?;
        }
    }
    Ok(())
}

/// Up to three numbers, and at times the count and the base day, changed to likely ones.
fn changed(comparison: &mut Comparison, random: &mut Random, pools: &Pools) -> Result<(), String> {
    let (leaving, staying, behind) = (random.below(5), 1 + random.below(5), random.below(8));
    let mut list = by_days(random, pools, leaving, staying);
    let count = list.count;
    list.numbers.extend((0..behind).map(|_| random.number()));
    for _ in 0..random.below(4) {
        let [near, far] = [random.below(64) as u32, random.number()];
        let copied = random.pick(&list.numbers);
        let likely = [0, 1, 2, 7, 8, 65_535, 65_536, 86_399, 86_400, 172_800, 5_529_599, near, far, copied, copied];
        list.set(random.below(count), random.below(NUMBERS), &[random.pick(&likely)]);
    }
    if random.one_in(8) {
        list.count = random.below(count + 3);
    }
    let base_day = if random.one_in(8) { base_days::refused(random) } else { base_days::legal(random) };
    comparison.alike(Case { pools, list: &list, base_day }).map(drop)
}

/// Buffers of 0 to 30 numbers, cut anywhere, with every count up to one too many, and with great ones.
fn small_buffers(comparison: &mut Comparison, random: &mut Random, pools: &Pools) -> Result<(), String> {
    let whole = by_days(random, pools, 2, 3);
    let most = comparison.caller.sizes().events;
    for numbers in 0..=whole.numbers.len() {
        let cut = List { numbers: whole.numbers[..numbers].to_vec(), count: 0 };
        for count in 0..=whole.count + 1 {
            let case = Case { pools, list: &cut.with_count(count), base_day: base_days::legal(random) };
            if NUMBERS * count <= numbers {
                comparison.rolls(case)?;
            } else {
                comparison.refuses(12, case)?;
            }
        }
        for count in [most, most + 1, 1 << 32, 1 << 63, usize::MAX / NUMBERS + 1, usize::MAX / 3, usize::MAX] {
            comparison.refuses(12, Case { pools, list: &cut.with_count(count), base_day: base_days::legal(random) })?;
        }
    }
    Ok(())
}
