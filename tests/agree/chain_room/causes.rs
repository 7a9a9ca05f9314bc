//! Why a list is unsound, and where the start then is: each cause is 12, and comes before every none.

use crate::tally::{each_kind, Kind};
use crate::unsound_causes::causes;

/// Where the start is, in the unsound list: 12 comes at each, and where the list were sound, none at all but the first.
pub const FREE: &str = "chain_room of an unsound list, free start";
pub const TAKEN: &str = "chain_room of an unsound list, taken start";
pub const PAST: &str = "chain_room of an unsound list, start past the last segment";
pub const FULL: &str = "chain_room of an unsound list, full segment";

/// Which events, by themselves, would be a sound list.
pub const PARTS: &str = "chain_room of an unsound list";
pub const SEGMENT_SOUND: &str = "the segment's events are sound";
pub const BEFORE_SOUND: &str = "the events up to the start are sound";

pub fn kinds() -> Vec<Kind> {
    let mut kinds = each_kind(PARTS, [SEGMENT_SOUND, BEFORE_SOUND]);
    for by in [FREE, TAKEN, PAST, FULL] {
        kinds.extend(each_kind(by, causes()));
    }
    kinds
}
