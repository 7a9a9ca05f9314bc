//! Parts of a list that somebody could take for all that the answer depends on.

use super::case::SEGMENT_SECONDS;
use crate::lists::{NUMBERS, START};
use crate::other::Lent;

/// The records of the start's segment; nothing if the buffer lacks some of the list.
pub fn of_segment(lent: &Lent, start: u32) -> Option<Vec<u32>> {
    part(lent, |record| record[START] / SEGMENT_SECONDS == start / SEGMENT_SECONDS)
}

/// The records up to the start; nothing if the buffer lacks some of the list.
pub fn up_to_start(lent: &Lent, start: u32) -> Option<Vec<u32>> {
    part(lent, |record| record[START] <= start)
}

fn part(lent: &Lent, is_of: impl Fn(&&[u32]) -> bool) -> Option<Vec<u32>> {
    let records = lent.list.get(..NUMBERS.checked_mul(lent.count)?)?;
    Some(records.chunks(NUMBERS).filter(is_of).collect::<Vec<_>>().concat())
}
