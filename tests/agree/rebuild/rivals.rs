//! Previous files that others made: other cuts, longer tables and later last tables than Build's. A table that Build
//! writes otherwise is raised, also if it has the same events.

use super::case::Case;
use super::changed_lists::CHANGES;
use super::comparison::Comparison;
use super::fates::{Fate, Fates};
use crate::other::Previous;
use crate::random::Random;
use crate::read::{rival, Given, Layout};

pub fn run(comparison: &mut Comparison) -> Result<(), String> {
    let random = &mut comparison.groups.begin("rivals");
    for _ in 0..150 {
        any(comparison, random)?;
    }
    for _ in 0..20 {
        one_table(comparison, random)?;
    }
    Ok(())
}

/// A rival's file of some events, and the same list or one that is changed. Of what is rebuilt the next one is Build's.
fn any(comparison: &mut Comparison, random: &mut Random) -> Result<(), String> {
    let given = Given::some(comparison.caller, random);
    let file = rival(random, &given).bytes();
    let (_, change) = random.pick(&CHANGES);
    let place = random.below(given.list.count);
    let changed = change(random, &given.list, place);
    let case = Case::of(Previous { file: &file, base_day: given.base_day }, &given, 0);
    for list in [Some(&given.list), changed.as_ref()].into_iter().flatten() {
        if let Some(rebuilt) = comparison.rebuilt(Case { list, ..case })? {
            let previous = Previous { file: &rebuilt.file, ..case.previous };
            let kept = rebuilt.fates.map(|fate| match fate {
                Fate::Kept | Fate::Raised | Fate::New => Fate::Kept,
                Fate::Gone | Fate::Absent => Fate::Absent,
            });
            comparison.rebuilt_with(kept, Case { previous, list, ..case })?;
        }
    }
    Ok(())
}

/// Three tables as Build writes them, but for one of them, which has another cut or an empty segment more behind; and
/// with a table more behind, which changes last_table_id.
fn one_table(comparison: &mut Comparison, random: &mut Random) -> Result<(), String> {
    let counts = [(); 3].map(|_| 2 + random.below(4));
    let segments = [0, 1, 2].map(|table| (32 * table + random.below(30), counts[table]));
    let given = Given::short(comparison.caller, random, &segments);
    let as_built = || Layout::of(segments.iter().map(|(index, events)| (*index, vec![*events])).collect());
    let mut kept: Fates = [Fate::Absent; 16];
    kept[..3].fill(Fate::Kept);
    rebuilt_from(comparison, &given, &as_built(), kept)?;

    for (table, (index, events)) in segments.into_iter().enumerate() {
        let mut one_raised = kept;
        one_raised[table] = Fate::Raised;
        let mut other_cut = as_built();
        other_cut.cuts.insert(index, vec![1, events - 1]);
        rebuilt_from(comparison, &given, &other_cut, one_raised)?;
        let mut longer = as_built();
        longer.segments[table] += 1;
        rebuilt_from(comparison, &given, &longer, one_raised)?;
    }
    let mut all_raised: Fates = [Fate::Absent; 16];
    all_raised[..3].fill(Fate::Raised);
    all_raised[3] = Fate::Gone;
    let mut later_last = as_built();
    later_last.segments.push(1 + random.below(32));
    rebuilt_from(comparison, &given, &later_last, all_raised)
}

/// Rebuild of the same list, from a file with this layout.
fn rebuilt_from(comparison: &mut Comparison, given: &Given, layout: &Layout, wanted: Fates) -> Result<(), String> {
    let file = layout.file(given).bytes();
    let previous = Previous { file: &file, base_day: given.base_day };
    comparison.rebuilt_with(wanted, Case::of(previous, given, 0)).map(drop)
}
