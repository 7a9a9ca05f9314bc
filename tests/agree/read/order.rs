//! Read's order of checks, and the precedences that must come up: 01, "When a call says no".

use crate::tally::{in_order, Precedence};

pub const SECTION_ORDER: [u32; 6] = [20, 21, 22, 23, 24, 26];
pub const END_ORDER: [u32; 2] = [25, 27];

/// A section where 24 is for the forbidden tag.
pub const TAGGED: &str = "tag 0xFF";

/// A section where 24 is for an overlap.
pub const OVERLAP: &str = "overlap";

/// A section where 22 is for another version than its table has.
pub const VERSION: &str = "version";

/// A section where 20 is for its length, beyond the caller's.
pub const LONG: &str = "long section";

/// Read's order in a section, of two sections, at the end, and over the call; around the forbidden tag, around an
/// overlap, around a table's version, and around a section that is too long.
pub fn precedences() -> Vec<Precedence> {
    let mut all = in_order("section", &SECTION_ORDER);
    for first in SECTION_ORDER {
        all.extend(SECTION_ORDER.map(|second| ("earlier section", first, second)));
        all.extend(END_ORDER.map(|second| ("end", first, second)));
    }
    all.extend(in_order("end", &END_ORDER));
    all.extend(SECTION_ORDER.iter().chain(&END_ORDER).map(|second| ("call", 1, *second)));

    for (by, number) in [(TAGGED, 24), (OVERLAP, 24), (VERSION, 22)] {
        let around = in_order(by, &SECTION_ORDER).into_iter();
        all.extend(around.filter(|(_, first, second)| *first == number || *second == number));
        all.extend(END_ORDER.map(|second| (by, number, second)));
    }
    all.extend([(OVERLAP, 1, 24), (VERSION, 1, 22)]);

    all.push((LONG, 1, 20));
    all.extend(SECTION_ORDER[1..].iter().chain(&END_ORDER).map(|second| (LONG, 20, *second)));
    all
}
