//! Large files: the most events with the longest chains, in the previous file and in the new one, and a previous file
//! that is refused far behind its start.

use super::case::Case;
use super::changes;
use super::comparison::Comparison;
use crate::lineup::Lineup;
use crate::other::Previous;
use crate::random::Random;
use crate::read::{rival, Given};

pub fn run(comparison: &mut Comparison) -> Result<(), String> {
    let random = &mut comparison.groups.begin("large");
    let given = longest(comparison, random);
    let file = rival(random, &given);
    let bytes = file.bytes();
    let previous = Previous { file: &bytes, base_day: given.base_day };
    let case = Case::of(previous, &given, 0);
    let need = comparison.rebuilt(case)?.map_or(0, |rebuilt| rebuilt.file.len());
    comparison.answers((11, need), Case { room: need - 1, ..case })?;

    let last = file.last();
    let wrong = file.with_raw(last, |section| section[14] ^= 1).bytes();
    let previous = Previous { file: &wrong, ..previous };
    comparison.answers((21, file.offset(last)), Case { previous, ..case })?;

    // As many events over all tables.
    let most = comparison.caller.sizes().events;
    let segments: Vec<_> = (0..most / 8).map(|k| (k * 512 / (most / 8), 8)).collect();
    let given = Given::short(comparison.caller, random, &segments);
    changes::each(comparison, random, &given)
}

/// The caller's most events, four in each segment from the first on, with chains as long as its sections hold or half.
fn longest(comparison: &Comparison, random: &mut Random) -> Given {
    let sizes = comparison.caller.sizes();
    let mut lineup = Lineup::new();
    for index in 0..sizes.events / 4 {
        let lengths = [(); 4].map(|_| sizes.chain_max() / random.pick(&[1, 1, 1, 2]));
        lineup.segment(random, index, &lengths);
    }
    Given::new(comparison.caller, random, lineup)
}
