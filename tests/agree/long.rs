//! Long scripts: refusals far behind the script's start, and edits that are carried out up to its end.

use crate::breaking;
use crate::edits::{Comparison, CALL_ORDER};
use crate::held::Held;
use crate::lists::List;
use crate::other::Caller;
use crate::pools::Pools;
use crate::random::Random;
use crate::scripts::{bytes, unstruck, Command};

const MB: usize = 1 << 20;

/// Commands from which on the library takes a script in halves, and these in halves again.
pub const HALVED: usize = 262_144;
const HALVED_TWICE: usize = 2 * HALVED;

pub fn run(comparison: &mut Comparison) -> Result<(), String> {
    let random = &mut comparison.groups.begin("long");
    let pools = Pools::of_lengths(random, 300, 200);
    let most = comparison.caller.sizes().events;
    carried_out(comparison, random, &pools, most / 2, most)?;
    // Each refusal of a script or an edit.
    for number in &CALL_ORDER[1..] {
        // From 64 KB to 2 MB, so that each bit of the offset from 16 to 20 counts.
        for bit in [16, 17, 18, 19, 20].repeat(2) {
            let length = (1 << bit) + random.below(1 << bit);
            refused(comparison, random, &pools, *number, length)?;
        }
    }
    if comparison.caller == Caller::Broadcast {
        longest(comparison, random, &pools)?;
    }
    Ok(())
}

/// A list far below the caller's most events, and refusals behind 8 MB, which the library takes in halves. Neither
/// depends on the caller's sizes, so that one caller is enough.
fn longest(comparison: &mut Comparison, random: &mut Random, pools: &Pools) -> Result<(), String> {
    carried_out(comparison, random, pools, 3, 12)?;
    CALL_ORDER[1..].iter().try_for_each(|number| refused(comparison, random, pools, *number, 8 * MB))
}

/// This refusal, behind at least so many bytes of commands that are carried out or struck.
fn refused(
    comparison: &mut Comparison,
    random: &mut Random,
    pools: &Pools,
    number: u32,
    length: usize,
) -> Result<(), String> {
    let list = List::sound(random, pools, 3, 6 * 12 + 4);
    let mut held = Held::by(comparison.caller, &list);
    let mut before = Vec::new();
    let mut behind = 0;
    while behind < length {
        let more = held.edits(random, pools, 100);
        behind += bytes(&more).len();
        before.extend(more);
    }
    before.extend(held.ready(random, pools, number == 8));
    if number == 4 {
        let undos = unstruck(&before);
        before.resize(before.len() + undos, Command::Undo);
    }
    let script = bytes(&before);
    let last = match number {
        3 => breaking::form(random).to_vec(),
        4 => bytes(&[Command::Undo]),
        _ => bytes(&[breaking::edit(random, pools, &held, number), held.any_edit(random, pools)]),
    };
    comparison.answers((number, script.len()), pools, &list, &[script, last].concat())
}

/// Scripts that are carried out whole: without UNDO, with short nests throughout, and around one nest of 280,000 edits.
fn carried_out(
    comparison: &mut Comparison,
    random: &mut Random,
    pools: &Pools,
    count: usize,
    limit: usize,
) -> Result<(), String> {
    let list = List::sound(random, pools, count, 6 * limit + 5);
    let mut held = Held::by(comparison.caller, &list);
    let plain = (0..540_000).map(|_| held.edit(random, pools)).collect();
    up_to_its_end(comparison, random, pools, &list, held, plain)?;

    let mut held = Held::by(comparison.caller, &list);
    let nests = held.edits(random, pools, 260_000);
    up_to_its_end(comparison, random, pools, &list, held, nests)?;

    let mut held = Held::by(comparison.caller, &list);
    let mut nest: Vec<_> = (0..150_000).map(|_| held.edit(random, pools)).collect();
    nest.extend((0..280_000).map(|_| held.any_edit(random, pools)));
    nest.resize(nest.len() + 280_000, Command::Undo);
    nest.extend((0..150_000).map(|_| held.edit(random, pools)));
    up_to_its_end(comparison, random, pools, &list, held, nest)
}

/// The commands, with a PUT behind them that shows in the count.
fn up_to_its_end(
    comparison: &mut Comparison,
    random: &mut Random,
    pools: &Pools,
    list: &List,
    mut held: Held,
    mut commands: Vec<Command>,
) -> Result<(), String> {
    commands.extend(held.ready(random, pools, false));
    commands.push(held.put(random, pools));
    let script = bytes(&commands);
    assert!(commands.len() > HALVED_TWICE && unstruck(&commands) > 70_000, "a long script came out short");
    comparison.answers((0, held.count()), pools, list, &script)
}
