//! Overlap (02, W-204) of every kind in a lent list: 12, before all else. Events that touch are taken.

use crate::at_limits::touching;
use crate::edits::{Comparison, OVERLAPPING};
use crate::lists::{List, NUMBERS};
use crate::overlapping::{self, some_places, TOUCHING};
use crate::pools::Pools;
use crate::random::Random;
use crate::soundness::before_all;
use crate::spaced::each_list;

pub const LIST: &str = "list";

/// Lists of so many events, and how many of them.
const COUNTS: [(usize, usize); 6] = [(1, 12), (2, 12), (3, 8), (12, 4), (40, 2), (255, 1)];

pub fn run(comparison: &mut Comparison) -> Result<(), String> {
    let random = &mut comparison.groups.begin("overlapped lists");
    let pools = Pools::of_lengths(random, 300, 200);
    each_list(random, &pools, &COUNTS, |random, list| in_list(comparison, random, &pools, list))?;
    large(comparison, random, &pools)
}

/// The list with an event more that overlaps; the list that touches throughout; and pairs of neighbours, of which the
/// first touches the second, or goes on for a second more, or for many.
fn in_list(comparison: &mut Comparison, random: &mut Random, pools: &Pools, list: &List) -> Result<(), String> {
    let place = random.below(list.count);
    let lists = overlapping::lists(random, pools, list, place);
    for (kind, overlapping) in &lists {
        comparison.answers((12, 0), pools, overlapping, &[])?;
        comparison.tally.kind((LIST, kind));
    }
    let (_, overlapping) = &lists[random.below(lists.len())];
    before_all(comparison, random, pools, list, overlapping, OVERLAPPING)?;
    comparison.answers((0, list.count), pools, &touching(list), &[])?;
    for place in some_places(random, list.count - 1) {
        lengthened(comparison, random, pools, list, place)?;
    }
    Ok(())
}

fn lengthened(
    comparison: &mut Comparison,
    random: &mut Random,
    pools: &Pools,
    list: &List,
    place: usize,
) -> Result<(), String> {
    if let Some(touching) = overlapping::lengthened(list, place, 0) {
        comparison.answers((0, list.count), pools, &touching, &[])?;
        comparison.tally.kind((LIST, TOUCHING));
    }
    for seconds in [1, 2 + random.below(1_000) as u32] {
        if let Some(overlapping) = overlapping::lengthened(list, place, seconds) {
            comparison.answers((12, 0), pools, &overlapping, &[])?;
        }
    }
    Ok(())
}

/// The caller's most events: two neighbours anywhere that touch, or overlap.
fn large(comparison: &mut Comparison, random: &mut Random, pools: &Pools) -> Result<(), String> {
    let most = comparison.caller.sizes().events;
    let list = List::sound(random, pools, most, NUMBERS * most);
    let places: Vec<_> = (0..most - 1).filter(|place| *place < 4 || *place > most - 6 || random.one_in(200)).collect();
    places.into_iter().try_for_each(|place| lengthened(comparison, random, pools, &list, place))
}
