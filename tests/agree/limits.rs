//! The list's limit, by the buffer and by the caller's events, and the limits of an edit's values.

use crate::breaking;
use crate::edits::{Comparison, ORDER, PUT_AT_MOST};
use crate::held::Held;
use crate::lists::{record, List, DURATION, DURATION_MAX, ID, MARKS, OFFSET, START, START_END};
use crate::pools::Pools;
use crate::random::Random;
use crate::scripts::{bytes, Command};

pub fn run(comparison: &mut Comparison) -> Result<(), String> {
    let random = &mut comparison.groups.begin("limits");
    let pools = Pools::of_lengths(random, 60, 40);
    for numbers in 0..=40 {
        for count in 0..=numbers / 6 {
            fill(comparison, random, &pools, count, numbers)?;
        }
    }
    let most = comparison.caller.sizes().events;
    let full = 6 * most;
    for numbers in [full - 6, full - 1, full, full + 1, full + 6, full + 600, 2 * full, 8 * full] {
        let limit = most.min(numbers / 6);
        for count in [limit - 9, limit - 1, limit] {
            fill(comparison, random, &pools, count, numbers)?;
        }
    }
    fill(comparison, random, &pools, 0, full + 600)?;
    for numbers in [full, full + 6, 8 * full].repeat(4) {
        before_the_limit(comparison, random, &pools, numbers)?;
    }
    values(comparison, random, &pools)
}

/// PUTs up to the limit are carried out, the next is refused, and a full list can still be edited otherwise.
fn fill(
    comparison: &mut Comparison,
    random: &mut Random,
    pools: &Pools,
    count: usize,
    numbers: usize,
) -> Result<(), String> {
    let list = List::sound(random, pools, count, numbers);
    let mut held = Held::by(comparison.caller, &list);
    let mut commands = Vec::new();
    while !held.is_full() {
        commands.push(held.put(random, pools));
    }
    comparison.answers((0, held.count()), pools, &list, &bytes(&commands))?;
    one_more(comparison, random, pools, &list, &held, &commands)?;
    if held.count() == 0 {
        return Ok(());
    }
    commands.push(held.move_one(random));
    comparison.answers((0, held.count()), pools, &list, &bytes(&commands))?;
    commands.push(held.withdraw(random));
    comparison.answers((0, held.count()), pools, &list, &bytes(&commands))?;
    commands.push(held.put(random, pools));
    comparison.answers((0, held.count()), pools, &list, &bytes(&commands))?;
    one_more(comparison, random, pools, &list, &held, &commands)
}

/// PUT after commands that leave the list full.
fn one_more(
    comparison: &mut Comparison,
    random: &mut Random,
    pools: &Pools,
    list: &List,
    held: &Held,
    commands: &[Command],
) -> Result<(), String> {
    let before = bytes(commands);
    let put = bytes(&[breaking::put(random, pools, held, &[8])]);
    comparison.answers((8, before.len()), pools, list, &[before, put].concat())
}

/// PUT that breaks another rule, on a list of the caller's most events in a buffer of so many numbers: 8 is the last.
fn before_the_limit(
    comparison: &mut Comparison,
    random: &mut Random,
    pools: &Pools,
    numbers: usize,
) -> Result<(), String> {
    let list = List::sound(random, pools, comparison.caller.sizes().events, numbers);
    let held = Held::by(comparison.caller, &list);
    for first in ORDER.into_iter().filter(|first| *first != 8) {
        let put = breaking::put(random, pools, &held, &[first, 8]);
        comparison.answers((first, 0), pools, &list, &bytes(&[put]))?;
        comparison.tally.precedence((PUT_AT_MOST, first, 8));
    }
    Ok(())
}

/// Each value of PUT and MOVE at its limit and one beyond.
fn values(comparison: &mut Comparison, random: &mut Random, pools: &Pools) -> Result<(), String> {
    let list = List::sound(random, pools, 0, 6 * 2);
    let cases = [
        (ID, 0, 0),
        (ID, 65_535, 0),
        (START, 0, 0),
        (START, START_END - 1, 0),
        (START, START_END, 5),
        (START, u32::MAX, 5),
        (DURATION, 0, 5),
        (DURATION, 1, 0),
        (DURATION, DURATION_MAX, 0),
        (DURATION, DURATION_MAX + 1, 5),
        (DURATION, u32::MAX, 5),
        (MARKS, 7, 0),
        (MARKS, 8, 5),
        (MARKS, 10, 5),
        (MARKS, 255, 5),
    ];
    for (field, value, number) in cases {
        let mut record = record(random, pools);
        // An empty part is a chain in either pool, whatever the marks become.
        record[OFFSET..].fill(0);
        record[field] = value;
        let returned = if number == 0 { 1 } else { 0 };
        comparison.answers((number, returned), pools, &list, &bytes(&[Command::Put(record)]))?;
        if field == START {
            let put = Command::Put([record[ID], 1, 1, 0, 0, 0]);
            let moves = [put, Command::Move(record[ID], value)];
            let returned = if number == 0 { 1 } else { bytes(&[put]).len() };
            comparison.answers((number, returned), pools, &list, &bytes(&moves))?;
        }
    }
    Ok(())
}
