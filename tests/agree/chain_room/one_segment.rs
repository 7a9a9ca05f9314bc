//! Segments with all of the caller's most events, which leave ever fewer bytes of eight sections.

use super::case::{Case, SEGMENT_SECONDS};
use super::comparison::Comparison;
use super::segments::apart;
use crate::chain_lengths::taking;
use crate::lineup::Lineup;
use crate::random::Random;

pub fn run(comparison: &mut Comparison) -> Result<(), String> {
    let random = &mut comparison.groups.begin("one segment");
    [4_000, 900, 200, 90, 60, 0].into_iter().try_for_each(|left| leaving(comparison, random, left))
}

/// So many bytes are left in all, at the ends of the sections.
fn leaving(comparison: &mut Comparison, random: &mut Random, left: usize) -> Result<(), String> {
    let sizes = comparison.caller.sizes();
    let lengths = taking(random, 8 * sizes.room() - left, sizes.events);
    let starts = apart(random, lengths.len());
    let first = SEGMENT_SECONDS * random.pick(&[0, 1, 511]);
    let mut lineup = Lineup::new();
    for (start, length) in starts.iter().zip(lengths) {
        lineup.event(random, first + start, length);
    }
    let (pools, list) = &lineup.lend(random);
    let some = random.pick(&starts);
    for start in [starts[0] - 1, some - 1, some, starts[starts.len() - 1] + 1] {
        comparison.alike(Case { pools, list, start: first + start })?;
    }
    Ok(())
}
