//! UNDO in two scripts and in the two joined (02, W-214): every pattern of up to five commands each.

use super::apart::{self, Apart};
use crate::edits::Comparison;
use crate::held::Held;
use crate::lists::List;
use crate::pools::Pools;
use crate::random::Random;
use crate::scripts::bytes;
use crate::tally::{each_kind, Kind};
use crate::undo::{commands, patterns};

const UNDO: &str = "joined, UNDO";

/// Both scripts are accepted.
const IN_FIRST: &str = "in the first alone";
const IN_SECOND: &str = "in the second alone";
const IN_BOTH: &str = "in both";

/// The second is refused with 4, and the two joined are accepted.
const INTO_FIRST: &str = "of the second into the first";

pub fn kinds() -> Vec<Kind> {
    each_kind(UNDO, [IN_FIRST, IN_SECOND, IN_BOTH, INTO_FIRST])
}

pub fn run(comparison: &mut Comparison) -> Result<(), String> {
    let random = &mut comparison.groups.begin("joined UNDO");
    let pools = Pools::of_lengths(random, 60, 40);
    let patterns: Vec<_> = patterns(5).collect();
    for first in &patterns {
        for second in &patterns {
            of_patterns(comparison, random, &pools, [first, second])?;
        }
    }
    Ok(())
}

/// The patterns over PUTs that all fit, and over edits of any kind.
fn of_patterns(
    comparison: &mut Comparison,
    random: &mut Random,
    pools: &Pools,
    undo: [&[bool]; 2],
) -> Result<(), String> {
    let empty = List::sound(random, pools, 0, 6 * 10 + 3);
    let mut held = Held::by(comparison.caller, &empty);
    let puts = undo.map(|undo| bytes(&commands(undo, || held.put(random, pools))));
    let some = List::sound(random, pools, 3, 6 * 6 + 1);
    let held = Held::by(comparison.caller, &some);
    let edits = undo.map(|undo| bytes(&commands(undo, || held.any_edit(random, pools))));
    let has_undo = undo.map(|undo| undo.contains(&true));
    for (list, [first, second]) in [(&empty, puts), (&some, edits)] {
        let Some(Apart { second, joined, .. }) = apart::run(comparison, pools, list, &first, &second)? else {
            continue;
        };
        let is_accepted = second.answer.number == 0;
        let kinds = [
            (IN_FIRST, is_accepted && has_undo == [true, false]),
            (IN_SECOND, is_accepted && has_undo == [false, true]),
            (IN_BOTH, is_accepted && has_undo == [true, true]),
            (INTO_FIRST, second.answer.number == 4 && joined.answer.number == 0),
        ];
        comparison.tally.came_up(UNDO, &kinds);
    }
    Ok(())
}
