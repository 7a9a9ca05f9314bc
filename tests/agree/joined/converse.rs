//! 02, W-214, does not hold the other way round: where the second of two scripts has an UNDO with nothing to strike, it
//! is refused, and the two joined may be accepted, for there it strikes what the first has.

use super::apart::{self, Apart};
use super::pairs::near_limit;
use crate::edits::Comparison;
use crate::held::Held;
use crate::lists::List;
use crate::other::Answer;
use crate::outcome::Outcome;
use crate::pools::Pools;
use crate::random::Random;
use crate::scripts::{bytes, unstruck, Command};
use crate::tally::{each_kind, Kind};

const INTO_FIRST: &str = "joined, UNDO into the first";

const PUT_ALONE: &str = "PUT, and UNDO alone";
const LAST_EDITS: &str = "its last edits, and on";
const ONE_MORE: &str = "one more than it has";

pub fn kinds() -> Vec<Kind> {
    each_kind(INTO_FIRST, [PUT_ALONE, LAST_EDITS, ONE_MORE])
}

pub fn run(comparison: &mut Comparison) -> Result<(), String> {
    let random = &mut comparison.groups.begin("joined converse");
    let pools = Pools::of_lengths(random, 300, 200);
    for _ in 0..400 {
        put_and_undo(comparison, random, &pools)?;
        last_edits(comparison, random, &pools)?;
        one_more(comparison, random, &pools)?;
    }
    Ok(())
}

/// PUT, and UNDO alone: joined they leave the list as it was, whole.
fn put_and_undo(comparison: &mut Comparison, random: &mut Random, pools: &Pools) -> Result<(), String> {
    let list = near_limit(random, pools, 2);
    let put = bytes(&[Held::by(comparison.caller, &list).put(random, pools)]);
    let as_it_was = Outcome::new(Answer { number: 0, value: list.count, count: list.count }, &list.numbers);
    into_first(comparison, pools, &list, PUT_ALONE, [&put, &[0x04]], (0, as_it_was))
}

/// The second strikes the last edits of the first and goes on: joined they give what the others give without those.
fn last_edits(comparison: &mut Comparison, random: &mut Random, pools: &Pools) -> Result<(), String> {
    let list = near_limit(random, pools, 8);
    let mut held = Held::by(comparison.caller, &list);
    let [kept, struck, more] = [random.below(4), 1 + random.below(4), random.below(4)];
    let kept = held.edits(random, pools, kept);
    let struck = held.edits(random, pools, struck);
    let nest = held.struck(random, pools);
    let without_them = comparison.alike(pools, &list, &bytes(&kept))?.left;
    let more = bytes(&Held::by(comparison.caller, &without_them).edits(random, pools, more));
    let wanted = comparison.alike(pools, &without_them, &more)?;

    let undos = vec![Command::Undo; unstruck(&struck)];
    let first = bytes(&[kept, struck].concat());
    let nest = bytes(&nest);
    let second = [&nest, &bytes(&undos), &more].map(Vec::as_slice).concat();
    into_first(comparison, pools, &list, LAST_EDITS, [&first, &second], (nest.len(), wanted))
}

/// One UNDO more than the first has edits: 4 also when joined, at the last of them.
fn one_more(comparison: &mut Comparison, random: &mut Random, pools: &Pools) -> Result<(), String> {
    let list = near_limit(random, pools, 8);
    let edits = 1 + random.below(4);
    let first = Held::by(comparison.caller, &list).edits(random, pools, edits);
    let undos = vec![0x04; unstruck(&first) + 1];
    let first = bytes(&first);
    let answer = Answer { number: 4, value: first.len() + undos.len() - 1, count: list.count };
    let wanted = Outcome::new(answer, &list.numbers);
    into_first(comparison, pools, &list, ONE_MORE, [&first, &undos], (0, wanted))
}

/// The second is refused with 4 at this offset, and the two joined give what is wanted.
fn into_first(
    comparison: &mut Comparison,
    pools: &Pools,
    list: &List,
    kind: &'static str,
    [first_script, second_script]: [&[u8]; 2],
    (offset, wanted): (usize, Outcome),
) -> Result<(), String> {
    let apart = apart::run(comparison, pools, list, first_script, second_script)?;
    let Some(Apart { first, second, joined }) = apart else {
        return Ok(());
    };
    let Outcome { left, .. } = first;
    let refused = Outcome::new(Answer { number: 4, value: offset, count: left.count }, &left.numbers);
    let made_for = "the input is made for";
    let fault = |difference: String| comparison.describe(&difference, pools, &left, second_script);
    second.same_as(made_for, &refused).map_err(fault)?;
    let joined_script = [first_script, second_script].concat();
    let fault = |difference: String| comparison.describe(&difference, pools, list, &joined_script);
    joined.same_as(made_for, &wanted).map_err(fault)?;
    comparison.tally.kind((INTO_FIRST, kind));
    Ok(())
}
