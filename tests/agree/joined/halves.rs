//! Two scripts that the library takes in halves when they are joined (02, W-214), and two that it takes in halves each.

use super::apart::{self, Apart};
use super::pairs::JOINED;
use crate::edits::Comparison;
use crate::held::Held;
use crate::lists::{List, NUMBERS};
use crate::long::HALVED;
use crate::other::Caller;
use crate::pools::Pools;
use crate::scripts::bytes;
use crate::tally::{each_kind, Kind};

const WHEN_JOINED: &str = "in halves when joined";
const EACH: &str = "in halves each";

/// Neither depends on the caller's sizes, so that one caller is enough.
pub fn kinds(caller: Caller) -> Vec<Kind> {
    match caller {
        Caller::Broadcast => each_kind(JOINED, [WHEN_JOINED, EACH]),
        Caller::Cable => Vec::new(),
    }
}

pub fn run(comparison: &mut Comparison) -> Result<(), String> {
    if comparison.caller == Caller::Cable {
        return Ok(());
    }
    let random = &mut comparison.groups.begin("joined halves");
    let pools = Pools::of_lengths(random, 300, 200);
    for edits in [70_000, 110_000] {
        let list = List::sound(random, &pools, 3, NUMBERS * 12 + 4);
        let mut held = Held::by(comparison.caller, &list);
        let [first, second] = [edits, edits].map(|edits| held.edits(random, &pools, edits));
        let lengths = [first.len(), second.len()];
        let apart = apart::run(comparison, &pools, &list, &bytes(&first), &bytes(&second))?;
        if apart.as_ref().is_some_and(Apart::is_accepted) {
            let when_joined = lengths.iter().all(|commands| *commands < HALVED) && lengths[0] + lengths[1] > HALVED;
            let each = lengths.iter().all(|commands| *commands > HALVED);
            comparison.tally.came_up(JOINED, &[(WHEN_JOINED, when_joined), (EACH, each)]);
        }
    }
    Ok(())
}
