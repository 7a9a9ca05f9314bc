//! Build's order of checks, and the precedences that must come up: 01, "When a call says no".

use crate::tally::{in_order, Precedence};

pub const ORDER: [u32; 5] = [1, 2, 12, 10, 11];

/// Build where 12 is for the forbidden tag.
pub const BUILD_TAGGED: &str = "Build, tag 0xFF";

/// Build where 12 is for an event that is one too many.
pub const BUILD_CROWDED: &str = "Build, an event too many";

/// Build where 12 is for an overlap.
pub const BUILD_OVERLAPPING: &str = "Build, an overlap";

/// Build's order, and around three kinds of 12.
pub fn precedences() -> Vec<Precedence> {
    let mut all = in_order("Build", &ORDER);
    for by in [BUILD_TAGGED, BUILD_CROWDED, BUILD_OVERLAPPING] {
        all.extend(in_order(by, &ORDER).into_iter().filter(|(_, first, second)| *first == 12 || *second == 12));
    }
    all
}
