//! UNDO: every pattern of edits and UNDO up to ten commands, then long and deep ones.

use crate::edits::Comparison;
use crate::held::Held;
use crate::lists::List;
use crate::pools::Pools;
use crate::random::Random;
use crate::scripts::{bytes, Command};

pub fn run(comparison: &mut Comparison) -> Result<(), String> {
    let random = &mut comparison.groups.begin("UNDO");
    let pools = Pools::of_lengths(random, 60, 40);
    for undo in patterns(10) {
        short(comparison, random, &pools, &undo)?;
    }
    for edits in [300, 2_048, 2_049, 20_000, 70_000] {
        deep(comparison, random, &pools, edits)?;
    }
    for _ in 0..100 {
        long(comparison, random, &pools)?;
    }
    Ok(())
}

/// Every pattern of up to so many commands: which of them are UNDO.
pub fn patterns(length_max: usize) -> impl Iterator<Item = Vec<bool>> {
    let of_length = |length| (0..1u32 << length).map(move |bits| (0..length).map(|bit| bits >> bit & 1 == 1).collect());
    (0..=length_max).flat_map(of_length)
}

/// The commands of a pattern, with the edits that are drawn for it.
pub fn commands(undo: &[bool], mut edit: impl FnMut() -> Command) -> Vec<Command> {
    undo.iter().map(|&undo| if undo { Command::Undo } else { edit() }).collect()
}

/// The pattern over PUTs that all fit, so that its answer is counted here, and over edits of any kind.
fn short(comparison: &mut Comparison, random: &mut Random, pools: &Pools, undo: &[bool]) -> Result<(), String> {
    let empty = List::sound(random, pools, 0, 6 * 10 + 3);
    let mut held = Held::by(comparison.caller, &empty);
    let puts = commands(undo, || held.put(random, pools));
    comparison.answers(answer_of_puts(&puts), pools, &empty, &bytes(&puts))?;

    let some = List::sound(random, pools, 3, 6 * 6 + 1);
    let held = Held::by(comparison.caller, &some);
    let edits = commands(undo, || held.any_edit(random, pools));
    comparison.alike(pools, &some, &bytes(&edits)).map(drop)
}

/// Number and value for commands that are PUT, all of which fit, or UNDO.
fn answer_of_puts(commands: &[Command]) -> (u32, usize) {
    let mut unstruck = 0;
    for (place, command) in commands.iter().enumerate() {
        match command {
            Command::Undo if unstruck == 0 => return (4, bytes(&commands[..place]).len()),
            Command::Undo => unstruck -= 1,
            _ => unstruck += 1,
        }
    }
    (0, unstruck)
}

/// So many edits, of which the first fits and most others would be refused: struck all but the first, all, and one UNDO
/// more.
fn deep(comparison: &mut Comparison, random: &mut Random, pools: &Pools, edits: usize) -> Result<(), String> {
    let list = List::sound(random, pools, 2, 6 * 4);
    let mut held = Held::by(comparison.caller, &list);
    let mut commands = vec![held.put(random, pools)];
    commands.extend((1..edits).map(|_| held.any_edit(random, pools)));
    commands.resize(2 * edits - 1, Command::Undo);
    let mut script = bytes(&commands);
    comparison.answers((0, 3), pools, &list, &script)?;
    script.push(0x04);
    comparison.answers((0, 2), pools, &list, &script)?;
    script.push(0x04);
    comparison.answers((4, script.len() - 1), pools, &list, &script)
}

/// A walk of up to some thousand commands between edits and UNDO, at times one UNDO too deep.
fn long(comparison: &mut Comparison, random: &mut Random, pools: &Pools) -> Result<(), String> {
    let list = List::sound(random, pools, 5, 6 * 40 + 2);
    let held = Held::by(comparison.caller, &list);
    let mut commands = Vec::new();
    let mut unstruck = 0;
    for _ in 0..random.below(3_000) {
        let strikes = unstruck > 0 || random.one_in(1_000);
        if strikes && random.one_in(2) {
            commands.push(Command::Undo);
            unstruck -= 1;
        } else {
            commands.push(held.any_edit(random, pools));
            unstruck += 1;
        }
    }
    comparison.alike(pools, &list, &bytes(&commands))?;
    Ok(())
}
