//! The place of a start (02, W-203): the comparison with the other implementation, its groups of cases, and the
//! self-check's faults. It serves no caller.

mod behind;
mod buffers;
mod comparison;
mod every;
mod faults;
mod known;
mod shapes;

pub use comparison::SEED;

use crate::faults::shows;
use crate::other;
use comparison::{Comparison, Search};

/// How many searches were compared, or where the two differ.
pub fn run(search: Search) -> Result<usize, String> {
    let mut comparison = Comparison::new(search);
    known::run(&mut comparison)?;
    buffers::run(&mut comparison)?;
    behind::run(&mut comparison)?;
    every::run(&mut comparison)?;
    Ok(comparison.searches)
}

/// The faults tried, or the one that the comparison did not show. Without a fault nothing shows.
pub fn self_check() -> Result<Vec<String>, String> {
    run(other::place)?;
    faults::ALL.into_iter().map(|(fault, search)| shows("place", fault, run(search))).collect()
}
