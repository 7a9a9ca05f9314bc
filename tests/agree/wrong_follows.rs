//! Events that follow each other otherwise than the papers have it, for the faults of the self-check: 02, W-204, taken
//! wrongly. Starts rise in any case.

use crate::other::Event;

/// Whatever their durations.
pub fn by_starts(_: &Event, _: &Event) -> bool {
    true
}

/// With a second in common.
pub fn by_a_second_too_few(event: &Event, next: &Event) -> bool {
    event.end() <= next.start + 1
}

/// With a second between them.
pub fn without_touching(event: &Event, next: &Event) -> bool {
    event.end() < next.start
}

/// So long after each other as the longest event takes.
pub fn by_the_longest_duration(event: &Event, next: &Event) -> bool {
    event.start + 359_999 <= next.start
}
