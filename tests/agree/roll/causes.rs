//! Why a list that is to be rolled is unsound: each cause is 12, and 31 comes before it.

use crate::tally::{each_kind, Kind, Precedence};
use crate::unsound_causes::causes;

pub const UNSOUND: &str = "roll of an unsound list";

/// Whether the records that leave, and those that stay, would be a sound list each.
pub const STAYING_SOUND: &str = "what stays is sound";
pub const LEAVING_SOUND: &str = "what leaves is sound";
pub const EACH_SOUND: &str = "what leaves and what stays is sound";

pub fn kinds() -> Vec<Kind> {
    each_kind(UNSOUND, causes().chain([STAYING_SOUND, LEAVING_SOUND, EACH_SOUND]))
}

pub fn precedences() -> Vec<Precedence> {
    causes().map(|cause| (cause, 31, 12)).collect()
}
