//! Rebuild's order of checks, and the precedences that must come up: 02, W-208, "The previous file is read first", and
//! 01, "When a call says no".

use crate::tally::{in_order, Precedence};

/// The refusals of the previous file: 1 for its base day, those of a section, and 25 at its end.
pub const PREVIOUS: [u32; 8] = [1, 20, 21, 22, 23, 24, 26, 25];

/// Build's, in which 1 is for the new base day; never 2.
pub const BUILD: [u32; 4] = [1, 12, 10, 11];

/// Two refusals of the previous file; one of it and one of Build's; two of Build's.
pub const IN_PREVIOUS: &str = "previous file";
pub const PREVIOUS_FIRST: &str = "previous file before Build";
pub const IN_BUILD: &str = "Build";

pub fn precedences() -> Vec<Precedence> {
    let across = PREVIOUS.into_iter().flat_map(|first| BUILD.map(|second| (PREVIOUS_FIRST, first, second)));
    [in_order(IN_PREVIOUS, &PREVIOUS), across.collect(), in_order(IN_BUILD, &BUILD)].concat()
}
