//! Every version of a table that changes, beside every version of one that does not: the old one plus 1 modulo 32.

use super::case::Case;
use super::comparison::Comparison;
use super::fates::{version, Fate, Fates};
use crate::lists::MARKS;
use crate::other::Previous;
use crate::random::Random;
use crate::read::{File, Given};

pub fn run(comparison: &mut Comparison) -> Result<(), String> {
    let random = &mut comparison.groups.begin("modulo");
    for changed in [0, 1] {
        for first in 0..32 {
            rises(comparison, random, changed, first, 1)?;
        }
        rises(comparison, random, changed, 0, 33)?;
    }
    Ok(())
}

/// So many changes to one of two tables, which has this version first.
fn rises(
    comparison: &mut Comparison,
    random: &mut Random,
    changed: usize,
    first: u8,
    changes: u8,
) -> Result<(), String> {
    let mut given = Given::short(comparison.caller, random, &[(0, 1), (32, 1)]);
    given.identity.versions[changed] = first;
    let beside = given.identity.versions[1 - changed];
    let mut file = given.built().expect("two events are packable").bytes();
    let mut wanted: Fates = [Fate::Absent; 16];
    (wanted[changed], wanted[1 - changed]) = (Fate::Raised, Fate::Kept);
    for change in 1..=changes {
        given.list.set(changed, MARKS, &[given.list.get(changed, MARKS) ^ 4]);
        let previous = Previous { file: &file, base_day: given.base_day };
        file = comparison.rebuilt_with(wanted, Case::of(previous, &given, 0))?;
        let [said, said_beside] = [changed, 1 - changed].map(|table| version(&File::of(&file, 0), table));
        if (said, said_beside) != ((first + change) % 32, beside) {
            return Err(format!("{change} changes left version {said} behind {first}, and {said_beside} beside it"));
        }
    }
    Ok(())
}
