//! Faults of what a roll goes by: each stands in for the library, and must show. What becomes of an event must show
//! also if it is wrong on both sides.

use super::outcome::DAY_SECONDS;
use crate::other::{Caller, Event, Follows, IsChain, RollMethod, ROLL_PAPERS};
use crate::{wrong_chains, wrong_follows};

/// Faults of which events leave, and of what is taken off the others.
pub const EVENTS: [(&str, RollMethod); 12] = [
    (
        "keeps what starts in the day's last second",
        with_next_day(|event| (event.start >= DAY_SECONDS - 1).then(|| earlier(event, DAY_SECONDS))),
    ),
    (
        "drops what starts at midnight",
        with_next_day(|event| (event.start > DAY_SECONDS).then(|| earlier(event, DAY_SECONDS))),
    ),
    ("takes nothing off", with_next_day(|event| stays(event).then_some(*event))),
    ("takes 86,399 off", with_next_day(|event| stays(event).then(|| earlier(event, DAY_SECONDS - 1)))),
    ("takes 86,401 off", with_next_day(|event| stays(event).then(|| earlier(event, DAY_SECONDS + 1)))),
    (
        "keeps a programme that runs over midnight",
        with_next_day(|event| (event.end() > DAY_SECONDS).then(|| earlier(event, DAY_SECONDS))),
    ),
    (
        "keeps what is left of a programme at midnight",
        with_next_day(|event| {
            let left = event.end().saturating_sub(event.start.max(DAY_SECONDS));
            (left > 0).then(|| Event { duration: left, ..earlier(event, DAY_SECONDS) })
        }),
    ),
    (
        "keeps what starts in the day's last segment",
        with_next_day(|event| (event.start >= 75_600).then(|| earlier(event, DAY_SECONDS))),
    ),
    (
        "drops what starts on the window's last day",
        with_next_day(|event| (stays(event) && event.start < 5_443_200).then(|| earlier(event, DAY_SECONDS))),
    ),
    (
        "loses the series pool",
        with_next_day(|event| stays(event).then(|| Event { marks: event.marks & !2, ..earlier(event, DAY_SECONDS) })),
    ),
    (
        "loses off air",
        with_next_day(|event| stays(event).then(|| Event { marks: event.marks & !4, ..earlier(event, DAY_SECONDS) })),
    ),
    (
        "ends what stays where it ended",
        with_next_day(|event| {
            stays(event).then(|| Event { duration: event.duration + DAY_SECONDS, ..earlier(event, DAY_SECONDS) })
        }),
    ),
];

/// Faults of what is refused.
pub const REFUSALS: [(&str, RollMethod); 14] = [
    ("says 31 from 65,473 on", RollMethod { is_last: |base_day| base_day >= 65_473, ..ROLL_PAPERS }),
    ("says 31 from 65,471 on", RollMethod { is_last: |base_day| base_day >= 65_471, ..ROLL_PAPERS }),
    ("takes the other caller's limit", with_events_max(|caller| caller.other().sizes().events)),
    ("takes a list with an event too many", with_events_max(|caller| caller.sizes().events + 1)),
    ("takes no list at its limit", with_events_max(|caller| caller.sizes().events - 1)),
    ("takes tag 0xFF", with_chains(wrong_chains::of_any_tags)),
    ("takes tag 0xFF behind the first descriptor", with_chains(wrong_chains::by_first_tag)),
    ("takes tag 0xFF in the first descriptor", with_chains(wrong_chains::by_later_tags)),
    ("takes tag 0xFF in the last descriptor", with_chains(wrong_chains::by_earlier_tags)),
    ("takes no byte 0xFF in a chain", with_chains(wrong_chains::without_the_byte)),
    ("takes no tag 0xFE", with_chains(wrong_chains::without_highest_legal_tag)),
    ("takes a list in which events overlap", with_follows(wrong_follows::by_starts)),
    ("takes a list in which events overlap by a second", with_follows(wrong_follows::by_a_second_too_few)),
    ("takes no list in which events touch", with_follows(wrong_follows::without_touching)),
];

const fn with_next_day(next_day: fn(&Event) -> Option<Event>) -> RollMethod {
    RollMethod { next_day, ..ROLL_PAPERS }
}

const fn with_events_max(events_max: fn(Caller) -> usize) -> RollMethod {
    RollMethod { events_max, ..ROLL_PAPERS }
}

const fn with_chains(is_chain: IsChain) -> RollMethod {
    RollMethod { is_chain, ..ROLL_PAPERS }
}

const fn with_follows(follows: Follows) -> RollMethod {
    RollMethod { follows, ..ROLL_PAPERS }
}

fn stays(event: &Event) -> bool {
    event.start >= DAY_SECONDS
}

/// The event so much earlier, at most at 0.
fn earlier(event: &Event, seconds: u32) -> Event {
    Event { start: event.start.saturating_sub(seconds), ..*event }
}
