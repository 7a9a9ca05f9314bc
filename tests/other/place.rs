//! The place of a start in a list: 02, W-203.

use super::event::NUMBERS;

/// Where a record's start stands among its numbers.
const START: usize = 1;

/// The place of a start, and the number of records looked at.
#[derive(Clone, Copy, Debug, PartialEq)]
pub struct Place {
    pub place: usize,
    pub looked: usize,
}

/// The search "should end at the first record with a later start", and the place is before that one; behind all, if
/// none is later. Looked at are "those up to and with that one, or the list's count if there is none". A list that is
/// counted longer than its buffer has as many records as the buffer.
pub fn place(list: &[u32], count: usize, start: u32) -> Place {
    let mut looked = 0;
    for record in list.chunks_exact(NUMBERS).take(count) {
        looked += 1;
        if record[START] > start {
            return Place { place: looked - 1, looked };
        }
    }
    Place { place: looked, looked }
}
