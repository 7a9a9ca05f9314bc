//! Lists with random damage: single bits of every number, and numbers changed to likely ones. Some stay sound. At times
//! a version is any byte.

use super::comparison::Comparison;
use super::request::Request;
use super::segments::with_neighbours;
use crate::lists::{List, NUMBERS};
use crate::pools::Pools;
use crate::random::Random;

pub fn run(comparison: &mut Comparison) -> Result<(), String> {
    let random = &mut comparison.groups.begin("damage");
    for index in [0, 3, 33] {
        let (pools, list) = with_neighbours(comparison.caller, random, index, &[0, 7, 20, 300]);
        for place in 0..NUMBERS * list.count {
            for bit in 0..32 {
                let mut damaged = list.clone();
                damaged.numbers[place] ^= 1 << bit;
                damaged_alike(comparison, random, &pools, &damaged)?;
            }
        }
    }
    for (day, series) in [(0, 0), (50, 0), (500, 300), (9_000, 70_000)] {
        let pools = Pools::of_lengths(random, day, series);
        for _ in 0..2_000 {
            changed(comparison, random, &pools)?;
        }
    }
    Ok(())
}

/// A sound list with up to three numbers, and at times the count, changed to likely ones.
fn changed(comparison: &mut Comparison, random: &mut Random, pools: &Pools) -> Result<(), String> {
    let count = 1 + random.below(12);
    let numbers = NUMBERS * count + random.below(8);
    let mut list = List::sound(random, pools, count, numbers);
    for _ in 0..random.below(4) {
        let [near, far] = [random.below(64) as u32, random.number()];
        let copied = random.pick(&list.numbers);
        let value = random.pick(&[0, 1, 2, 7, 8, 65_535, 65_536, 345_600, 5_529_599, near, far, copied, copied]);
        list.set(random.below(count), random.below(NUMBERS), &[value]);
    }
    if random.one_in(8) {
        list.count = random.below(count + 3);
    }
    damaged_alike(comparison, random, pools, &list)
}

fn damaged_alike(comparison: &mut Comparison, random: &mut Random, pools: &Pools, list: &List) -> Result<(), String> {
    let need = comparison.need(pools, list);
    let room = random.pick(&[need, need, need + 9, need - 1]);
    let mut request = Request::legal(random, room);
    if random.one_in(16) {
        request.identity.versions[random.below(16)] = random.byte();
    }
    comparison.alike(pools, list, request).map(drop)
}
