//! The forbidden tag (02, W-202), in PUT and in a lent list: refused for every descriptor of the part, and for none
//! beside it.

use crate::edits::Comparison;
use crate::held::Held;
use crate::lists::{record, List, ID, MARKS, START};
use crate::pools::Pools;
use crate::random::Random;
use crate::scripts::{bytes, Command};
use crate::tagged::Tagged;

const LENGTHS: [usize; 9] = [2, 3, 4, 12, 60, 257, 600, 4_066, 65_535];

pub fn run(comparison: &mut Comparison) -> Result<(), String> {
    let random = &mut comparison.groups.begin("tags");
    for Tagged { pools, parts } in Tagged::all(random, &LENGTHS) {
        for (part, is_chain) in parts {
            put(comparison, random, &pools, part, is_chain)?;
            in_list(comparison, random, &pools, part, is_chain)?;
        }
    }
    Ok(())
}

/// PUT as the first edit, and behind others, which stay; and struck, so that its part is not looked at.
fn put(
    comparison: &mut Comparison,
    random: &mut Random,
    pools: &Pools,
    part: [u32; 3],
    is_chain: bool,
) -> Result<(), String> {
    let list = List::sound(random, pools, 3, 6 * 12);
    let mut held = Held::by(comparison.caller, &list);
    let mut before = Vec::new();
    for edits in [0, 1, 4] {
        before.extend((0..edits).map(|_| held.edit(random, pools)));
        let mut record = record(random, pools);
        record[ID] = held.new_id(random);
        record[START..MARKS].copy_from_slice(&held.free(random).numbers());
        record[MARKS..].copy_from_slice(&part);
        let front = bytes(&before);
        let answer = if is_chain { (0, held.count() + 1) } else { (9, front.len()) };
        let script = [front, bytes(&[Command::Put(record)])].concat();
        comparison.answers(answer, pools, &list, &script)?;
        let struck = [script, bytes(&[Command::Undo])].concat();
        comparison.answers((0, held.count()), pools, &list, &struck)?;
    }
    Ok(())
}

/// The first event of a list, one between and the last, without a script.
fn in_list(
    comparison: &mut Comparison,
    random: &mut Random,
    pools: &Pools,
    part: [u32; 3],
    is_chain: bool,
) -> Result<(), String> {
    let list = List::sound(random, pools, 3, 6 * 3);
    let answer = if is_chain { (0, 3) } else { (12, 0) };
    (0..3).try_for_each(|place| comparison.answers(answer, pools, &list.with(place, MARKS, &part), &[]))
}
