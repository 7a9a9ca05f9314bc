//! Sound lists at every limit, and unsound ones of every kind.

use crate::at_limits::at_limits;
use crate::breaking;
use crate::edits::{Comparison, CALL_ORDER, CROWDED};
use crate::held::Held;
use crate::lists::{List, ID, START};
use crate::pools::Pools;
use crate::random::Random;
use crate::scripts::bytes;
use crate::unsound::unsound;

pub fn run(comparison: &mut Comparison) -> Result<(), String> {
    let random = &mut comparison.groups.begin("soundness");
    let most = comparison.caller.sizes().events;
    for (day, series) in [(0, 0), (0, 40), (40, 0), (300, 200)] {
        let pools = Pools::of_lengths(random, day, series);
        for (count, times) in [(1, 10), (2, 10), (3, 10), (12, 20), (100, 4), (most, 1)] {
            for _ in 0..times {
                kinds(comparison, random, &pools, count)?;
            }
        }
        // Sound but for their count; if the caller is cable, broadcast takes eight times its most.
        for count in [most + 1, most + 2, 2 * most, 8 * most, 8 * most + 1] {
            let list = List::sound(random, &pools, count, 6 * count + 12);
            too_many(comparison, random, &pools, &list)?;
        }
        equals(comparison, random, &pools)?;
        for _ in 0..4 {
            small_buffers(comparison, random, &pools)?;
        }
        changed_numbers(comparison, random, &pools)?;
    }
    Ok(())
}

/// Each kind of list with no script, with edits that are carried out, and with bytes of any kind.
fn kinds(comparison: &mut Comparison, random: &mut Random, pools: &Pools, count: usize) -> Result<(), String> {
    let numbers = 6 * count + random.below(14);
    let list = List::sound(random, pools, count, numbers);
    comparison.answers((0, count), pools, &list, &[])?;
    for list in at_limits(random, pools, &list) {
        comparison.answers((0, count), pools, &list, &[])?;
        let mut held = Held::by(comparison.caller, &list);
        let script = bytes(&held.edits(random, pools, 4));
        comparison.answers((0, held.count()), pools, &list, &script)?;
    }
    let edits = bytes(&Held::by(comparison.caller, &list).edits(random, pools, 4));
    for (what, unsound) in unsound(comparison.caller, random, pools, &list) {
        for script in [&[][..], &edits, &[0x04], &[0x77]] {
            let outcome = comparison.answers((12, 0), pools, &unsound, script);
            outcome.map_err(|fault| format!("{fault}\n  unsound: {what}"))?;
        }
    }
    Ok(())
}

/// A list that is sound but for its count, with no script and with scripts that ask for every other refusal.
fn too_many(comparison: &mut Comparison, random: &mut Random, pools: &Pools, list: &List) -> Result<(), String> {
    comparison.answers((12, 0), pools, list, &[])?;
    before_all(comparison, random, pools, list, list, CROWDED)
}

/// A list that is unsound, with scripts that ask for every other refusal by the list without this cause.
pub fn before_all(
    comparison: &mut Comparison,
    random: &mut Random,
    pools: &Pools,
    list: &List,
    unsound: &List,
    cause: &'static str,
) -> Result<(), String> {
    let held = Held::by(comparison.caller, list);
    for second in &CALL_ORDER[1..] {
        let script = match second {
            3 => vec![0x77],
            4 => vec![0x04],
            _ => bytes(&[breaking::put(random, pools, &held, &[*second])]),
        };
        comparison.answers((12, 0), pools, unsound, &script)?;
        comparison.tally.precedence((cause, 12, *second));
    }
    Ok(())
}

/// Equal ids at every two places of a short list and at many of a long one, and equal neighbouring starts.
fn equals(comparison: &mut Comparison, random: &mut Random, pools: &Pools) -> Result<(), String> {
    let short = List::sound(random, pools, 12, 6 * 12);
    for first in 0..12 {
        for second in first + 1..12 {
            equal_ids(comparison, pools, &short, first, second)?;
        }
    }
    let most = comparison.caller.sizes().events;
    let long = List::sound(random, pools, most, 6 * most);
    for _ in 0..60 {
        let second = 1 + random.below(most - 1);
        let first = random.below(second);
        equal_ids(comparison, pools, &long, first, second)?;
        let mut list = long.clone();
        list.set(second, START, &[long.get(second - 1, START)]);
        comparison.answers((12, 0), pools, &list, &[])?;
    }
    Ok(())
}

fn equal_ids(
    comparison: &mut Comparison,
    pools: &Pools,
    list: &List,
    first: usize,
    second: usize,
) -> Result<(), String> {
    let mut list = list.clone();
    list.set(second, ID, &[list.get(first, ID)]);
    comparison.answers((12, 0), pools, &list, &[])
}

/// Buffers of 0 to 30 numbers, cut anywhere, with every count up to one too many.
fn small_buffers(comparison: &mut Comparison, random: &mut Random, pools: &Pools) -> Result<(), String> {
    let whole = List::sound(random, pools, 5, 6 * 5);
    let script = bytes(&[Held::by(comparison.caller, &whole).put(random, pools)]);
    let most = comparison.caller.sizes().events;
    for numbers in 0..=30 {
        for count in 0..=6 {
            let list = List { numbers: whole.numbers[..numbers].to_vec(), count };
            let answer = if 6 * count <= numbers { (0, count) } else { (12, 0) };
            comparison.answers(answer, pools, &list, &[])?;
            comparison.alike(pools, &list, &script)?;
        }
        for count in [most, most + 1, 1 << 32, 1 << 63, usize::MAX / 6 + 1, usize::MAX / 3, usize::MAX] {
            let list = List { numbers: whole.numbers[..numbers].to_vec(), count };
            comparison.answers((12, 0), pools, &list, &script)?;
        }
    }
    Ok(())
}

/// A sound list with one number changed to a likely one, which may leave it sound, and an edit that was written before.
fn changed_numbers(comparison: &mut Comparison, random: &mut Random, pools: &Pools) -> Result<(), String> {
    for _ in 0..1_500 {
        let list_numbers = 6 * 5 + random.below(8);
        let mut list = List::sound(random, pools, 5, list_numbers);
        let script = bytes(&[Held::by(comparison.caller, &list).any_edit(random, pools)]);
        let place = random.below(5);
        let [near, far] = [random.below(64) as u32, random.number()];
        let copied = random.pick(&list.numbers);
        let value = random.pick(&[0, 1, 2, 7, 8, 65_535, 65_536, near, near, far, copied, copied, copied]);
        list.set(place, random.below(6), &[value]);
        comparison.alike(pools, &list, &script)?;
    }
    Ok(())
}
