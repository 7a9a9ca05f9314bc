//! Lists with random damage, of which some stay sound: single bits of every number, numbers changed to likely ones, and
//! buffers that are cut anywhere.

use super::case::Case;
use super::comparison::Comparison;
use crate::lists::{List, NUMBERS, START, START_END};
use crate::pools::Pools;
use crate::random::Random;

pub fn run(comparison: &mut Comparison) -> Result<(), String> {
    let random = &mut comparison.groups.begin("damage");
    for (day, series) in [(0, 0), (300, 200)] {
        let pools = &Pools::of_lengths(random, day, series);
        let list = List::sound(random, pools, 5, 5 * NUMBERS);
        for place in 0..list.numbers.len() {
            for bit in 0..32 {
                let mut list = list.clone();
                list.numbers[place] ^= 1 << bit;
                let start = likely_start(random, &list);
                comparison.alike(Case { pools, list: &list, start })?;
            }
        }
        for _ in 0..4_000 {
            changed(comparison, random, pools)?;
        }
        small_buffers(comparison, random, pools)?;
    }
    Ok(())
}

/// A start in the list, beside one of it, at the ends of the window, or anywhere.
fn likely_start(random: &mut Random, list: &List) -> u32 {
    let held = list.count.min(list.numbers.len() / NUMBERS).max(1);
    let one = list.numbers.get(NUMBERS * random.below(held) + START).copied().unwrap_or_default();
    let any = random.below(START_END as usize) as u32;
    let starts = [one, one.saturating_add(1), one.saturating_sub(1), any, any, 0, START_END - 1, START_END];
    random.pick(&starts)
}

/// Up to three numbers, and at times the count, changed to likely ones.
fn changed(comparison: &mut Comparison, random: &mut Random, pools: &Pools) -> Result<(), String> {
    let (count, behind) = (1 + random.below(9), random.below(8));
    let mut list = List::sound(random, pools, count, NUMBERS * count);
    list.numbers.extend((0..behind).map(|_| random.number()));
    for _ in 0..random.below(4) {
        let [near, far] = [random.below(64) as u32, random.number()];
        let copied = random.pick(&list.numbers);
        let likely = [0, 1, 2, 7, 8, 65_535, 65_536, 10_799, 10_800, 5_529_599, near, far, copied, copied];
        list.set(random.below(count), random.below(NUMBERS), &[random.pick(&likely)]);
    }
    if random.one_in(8) {
        list.count = random.below(count + 3);
    }
    let start = likely_start(random, &list);
    comparison.alike(Case { pools, list: &list, start }).map(drop)
}

/// Buffers of 0 to 30 numbers, cut anywhere, with every count up to one too many, and with great ones.
fn small_buffers(comparison: &mut Comparison, random: &mut Random, pools: &Pools) -> Result<(), String> {
    let whole = List::sound(random, pools, 5, 5 * NUMBERS);
    let most = comparison.caller.sizes().events;
    for numbers in 0..=whole.numbers.len() {
        let cut = List { numbers: whole.numbers[..numbers].to_vec(), count: 0 };
        for count in 0..=whole.count + 1 {
            let case = Case { pools, list: &cut.with_count(count), start: likely_start(random, &whole) };
            if NUMBERS * count <= numbers {
                comparison.alike(case)?;
            } else {
                comparison.refuses(case)?;
            }
        }
        for count in [most, most + 1, 1 << 32, 1 << 63, usize::MAX / NUMBERS + 1, usize::MAX / 3, usize::MAX] {
            comparison.refuses(Case { pools, list: &cut.with_count(count), start: likely_start(random, &whole) })?;
        }
    }
    Ok(())
}
