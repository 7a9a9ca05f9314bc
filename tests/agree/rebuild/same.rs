//! Rebuild of the list that the previous file was built of: the same bytes.

use super::case::Case;
use super::comparison::Comparison;
use crate::build::with_neighbours;
use crate::lineup::Lineup;
use crate::lists::List;
use crate::other::{self, Previous};
use crate::pools::{Pool, Pools};
use crate::read::Given;

pub fn run(comparison: &mut Comparison) -> Result<(), String> {
    let random = &mut comparison.groups.begin("same");
    let caller = comparison.caller;
    let sizes = caller.sizes();
    same(comparison, &Given::new(caller, random, Lineup::new()))?;
    for _ in 0..60 {
        same(comparison, &Given::some(caller, random))?;
    }
    for count in [1, 3, 31, 100, sizes.events] {
        let pools = Pools::of_lengths(random, 300, 200);
        let list = List::sound(random, &pools, count, 6 * count);
        same(comparison, &Given::of(caller, random, pools, list))?;
    }
    for index in [0, 31, 32, 511] {
        let (pools, list) = with_neighbours(caller, random, index, &[sizes.chain_max(); 8]);
        same(comparison, &Given::of(caller, random, pools, list))?;
    }
    Ok(())
}

/// Of the list, and of the records that Read gives back, with the previous file as their pool.
fn same(comparison: &mut Comparison, given: &Given) -> Result<(), String> {
    let Some(file) = given.built() else {
        return Ok(());
    };
    let bytes = file.bytes();
    let previous = Previous { file: &bytes, base_day: given.base_day };
    let mut numbers = vec![0; 6 * given.list.count];
    let count = other::read(comparison.caller, &bytes, given.base_day, &mut numbers).count;
    let read_back = List { numbers, count };
    let pools = Pools { day: Pool::new(&bytes, vec![0, bytes.len()]), series: Pool::new(&[], vec![0]) };
    let case = Case::of(previous, given, 0);
    for case in [case, Case { pools: &pools, list: &read_back, ..case }] {
        let rebuilt = comparison.rebuilt(case)?;
        if rebuilt.map(|rebuilt| rebuilt.file).as_ref() != Some(&bytes) {
            return Err(format!(
                "Rebuild of the same list is not the previous file\n  {}",
                given.list.describe(case.pools)
            ));
        }
    }
    Ok(())
}
