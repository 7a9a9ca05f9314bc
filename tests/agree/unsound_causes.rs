//! Why a list is unsound, by name, so that a run that misses a cause fails.

use crate::overlapping;

/// What the maker of unsound lists names.
const MADE: [&str; 19] = [
    "id one beyond",
    "start one beyond",
    "no duration",
    "duration one beyond",
    "marks one beyond",
    "marks one beyond, series",
    "count beyond the buffer",
    "count one beyond the caller's",
    "count 2^32",
    "count 2^63",
    "count of which six wrap to 2",
    "highest count",
    "high bit",
    "no chain",
    "starts fall",
    "starts equal",
    "overlap by a second",
    NEIGHBOURS_EQUAL,
    FAR_APART_EQUAL,
];
pub const NEIGHBOURS_EQUAL: &str = "ids of neighbours equal";
pub const FAR_APART_EQUAL: &str = "ids far apart equal";
pub const TAGGED: &str = "tag 0xFF";
pub const TOO_MANY: &str = "an event too many";

pub fn causes() -> impl Iterator<Item = &'static str> {
    MADE.into_iter().chain([TAGGED, TOO_MANY]).chain(overlapping::KINDS.map(|(kind, _)| kind))
}
