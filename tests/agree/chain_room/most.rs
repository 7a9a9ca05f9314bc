//! Lists of the caller's most events: the list's limit plays no part.

use super::case::Case;
use super::comparison::Comparison;
use crate::lists::{List, NUMBERS, START, START_END};
use crate::pools::Pools;

pub fn run(comparison: &mut Comparison) -> Result<(), String> {
    let random = &mut comparison.groups.begin("most events");
    let most = comparison.caller.sizes().events;
    for (day, series) in [(300, 200), (0, 0)] {
        let pools = &Pools::of_lengths(random, day, series);
        for count in [most - 1, most] {
            let more = random.below(2 * NUMBERS);
            let list = &List::sound(random, pools, count, NUMBERS * count + more);
            let [first, middle, last] = [0, count / 2, count - 1].map(|place| list.get(place, START));
            for start in [0, first + 1, middle, last + 1, START_END] {
                comparison.alike(Case { pools, list, start })?;
            }
        }
    }
    Ok(())
}
