//! Random scripts on random sound lists: carried out whole, of likely edits, and of bytes of any kind.

use crate::edits::Comparison;
use crate::held::Held;
use crate::lists::List;
use crate::pools::Pools;
use crate::random::Random;
use crate::scripts::bytes;

pub fn run(comparison: &mut Comparison) -> Result<(), String> {
    let random = &mut comparison.groups.begin("mixed");
    let most = comparison.caller.sizes().events;
    for (day, series) in [(0, 0), (50, 0), (500, 300), (9_000, 70_000)] {
        let pools = Pools::of_lengths(random, day, series);
        let sizes = [(12, 30, 2_000), (200, 100, 200), (most, 300, 100), (most, 30_000, 2)];
        for (counts, edits, times) in sizes {
            for _ in 0..times {
                carried_out(comparison, random, &pools, counts, edits)?;
            }
        }
        for _ in 0..10_000 {
            likely(comparison, random, &pools)?;
            any_bytes(comparison, random, &pools)?;
        }
    }
    Ok(())
}

/// A list of up to so many events, with a limit close above its count, and up to so many edits that are carried out.
fn carried_out(
    comparison: &mut Comparison,
    random: &mut Random,
    pools: &Pools,
    counts: usize,
    edits: usize,
) -> Result<(), String> {
    let count = random.below(counts + 1);
    let numbers = 6 * (count + random.below(8)).max(1) + random.below(6);
    let list = List::sound(random, pools, count, numbers);
    let mut held = Held::by(comparison.caller, &list);
    let edits = random.below(edits + 1);
    let script = bytes(&held.edits(random, pools, edits));
    comparison.answers((0, held.count()), pools, &list, &script)
}

/// Edits of any kind and UNDO on a short list that is full or nearly so.
fn likely(comparison: &mut Comparison, random: &mut Random, pools: &Pools) -> Result<(), String> {
    let list = short(random, pools);
    let commands = random.below(8);
    let script = bytes(&Held::by(comparison.caller, &list).likely(random, pools, commands));
    comparison.alike(pools, &list, &script).map(drop)
}

/// A few bytes, among which commands are likely.
fn any_bytes(comparison: &mut Comparison, random: &mut Random, pools: &Pools) -> Result<(), String> {
    let list = short(random, pools);
    let length = random.below(60);
    let script: Vec<_> =
        (0..length).map(|_| if random.one_in(10) { random.byte() } else { random.below(5) as u8 }).collect();
    comparison.alike(pools, &list, &script).map(drop)
}

fn short(random: &mut Random, pools: &Pools) -> List {
    let count = random.below(6);
    let numbers = 6 * count + random.below(14);
    List::sound(random, pools, count, numbers)
}
