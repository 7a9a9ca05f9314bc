//! The second of two scripts is refused on what the first left, and so are the two joined (02, W-214, with 01's table):
//! an edit with what was carried out before it, a broken form with the list that was lent.

use super::apart::{self, Apart};
use super::following::{self, Maker, REFUSED};
use super::pairs::near_limit;
use crate::breaking;
use crate::edits::Comparison;
use crate::held::Held;
use crate::lists::List;
use crate::pools::Pools;
use crate::random::Random;
use crate::scripts::bytes;
use crate::tally::{each_kind, Kind};

const SECOND_REFUSED: &str = "joined, the second refused";

const REFUSALS: [(&str, u32); 6] =
    [("with 3", 3), ("with 5", 5), ("with 9", 9), ("with 6", 6), ("with 30", 30), ("with 8", 8)];

pub fn kinds() -> Vec<Kind> {
    each_kind(SECOND_REFUSED, REFUSALS.map(|(kind, _)| kind).into_iter().chain(REFUSED.map(|(kind, ..)| kind)))
}

pub fn run(comparison: &mut Comparison) -> Result<(), String> {
    let random = &mut comparison.groups.begin("joined refusals");
    let pools = Pools::of_lengths(random, 300, 200);
    let most = comparison.caller.sizes().events;
    for counts in [vec![8; 300], vec![most; 2]].concat() {
        for refusal in REFUSALS {
            behind_edits(comparison, random, &pools, counts, refusal)?;
        }
        for following in REFUSED {
            taken_up(comparison, random, &pools, counts, following)?;
        }
    }
    Ok(())
}

/// The refusal behind edits of the second that are carried out, and before others.
fn behind_edits(
    comparison: &mut Comparison,
    random: &mut Random,
    pools: &Pools,
    counts: usize,
    refusal: (&'static str, u32),
) -> Result<(), String> {
    let list = near_limit(random, pools, counts);
    let mut held = Held::by(comparison.caller, &list);
    let [first, before, more] = [random.below(4), random.below(4), random.below(3)];
    let first = held.edits(random, pools, first);
    let mut second = held.edits(random, pools, before);
    second.extend(held.ready(random, pools, refusal.1 == 8));
    let last = match refusal.1 {
        3 => breaking::form(random).to_vec(),
        number => {
            let mut edits = vec![breaking::edit(random, pools, &held, number)];
            edits.extend((0..more).map(|_| held.any_edit(random, pools)));
            bytes(&edits)
        }
    };
    of_kind(comparison, pools, &list, refusal, [&bytes(&first), &[bytes(&second), last].concat()])
}

/// What the first did is taken up by the second, which is refused for it.
fn taken_up(
    comparison: &mut Comparison,
    random: &mut Random,
    pools: &Pools,
    counts: usize,
    (kind, number, maker): (&'static str, u32, Maker),
) -> Result<(), String> {
    let list = near_limit(random, pools, counts);
    let mut held = Held::by(comparison.caller, &list);
    let Some([first, second]) = following::scripts(random, pools, &mut held, maker) else {
        return Ok(());
    };
    of_kind(comparison, pools, &list, (kind, number), [&bytes(&first), &bytes(&second)])
}

/// The two scripts, which are of this kind if the second is refused with its number.
fn of_kind(
    comparison: &mut Comparison,
    pools: &Pools,
    list: &List,
    (kind, number): (&'static str, u32),
    [first, second]: [&[u8]; 2],
) -> Result<(), String> {
    let apart = apart::run(comparison, pools, list, first, second)?;
    if apart.is_some_and(|Apart { second, .. }| second.answer.number == number) {
        comparison.tally.kind((SECOND_REFUSED, kind));
    }
    Ok(())
}
