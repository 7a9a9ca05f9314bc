//! Faults of what the answer goes by: each stands in for the library, and must show. What fits must show also if it is
//! wrong on both sides.

use super::case::SEGMENT_SECONDS;
use crate::lists::START_END;
use crate::other::CHAIN_ROOM_BY_PACKING_RULE as BY_RULE;
use crate::other::{fewest_sections, Caller, ChainRoomMethod, Event, Follows, IsChain, Sizes};
use crate::{wrong_chains, wrong_follows};

/// Faults of which lengths fit.
pub const LENGTHS: [(&str, ChainRoomMethod); 15] = [
    ("gives 1", ChainRoomMethod { is_length: |_| true, ..BY_RULE }),
    ("never gives 0", ChainRoomMethod { is_length: |length| length > 1, ..BY_RULE }),
    ("never gives 2", ChainRoomMethod { is_length: |length| length != 1 && length != 2, ..BY_RULE }),
    ("gives even lengths alone", ChainRoomMethod { is_length: |length| length % 2 == 0, ..BY_RULE }),
    (
        "gives whole descriptors of 257 bytes alone",
        ChainRoomMethod { is_length: |length| length % 257 == 0, ..BY_RULE },
    ),
    (
        "takes the other caller's sections",
        with_sizes(|caller| Sizes { section: other(caller).section, ..sizes(caller) }),
    ),
    ("fills a section with one byte too many", with_holds(|room, events| holds(8, room + 1, events))),
    ("leaves a section's last byte", with_holds(|room, events| holds(8, room - 1, events))),
    ("takes nine sections", with_holds(|room, events| holds(9, room, events))),
    ("takes seven sections", with_holds(|room, events| holds(7, room, events))),
    (
        "adds up the bytes of eight sections",
        with_holds(|room, events| {
            events.iter().all(|bytes| *bytes <= room) && events.iter().sum::<usize>() <= 8 * room
        }),
    ),
    ("begins a section at each event", with_holds(|room, events| events.len() <= 8 && holds(8, room, events))),
    (
        "packs by bytes and not by start",
        with_holds(|room, events| {
            let mut by_bytes = events.to_vec();
            by_bytes.sort();
            holds(8, room, &by_bytes)
        }),
    ),
    (
        "forgets events that no section holds",
        with_holds(|room, events| {
            let held: Vec<_> = events.iter().copied().filter(|bytes| *bytes <= room).collect();
            holds(8, room, &held)
        }),
    ),
    (
        "packs as many events into each section",
        with_holds(|room, events| {
            let each = events.len().div_ceil(8).max(1);
            events.chunks(each).all(|section| section.iter().sum::<usize>() <= room)
        }),
    ),
];

/// Faults of the starts at which one more event can stand.
pub const STARTS: [(&str, ChainRoomMethod); 6] = [
    ("answers a taken start", with_free(|_, start| start < START_END)),
    ("answers past the last segment", with_free(|events, start| !is_taken(events, start))),
    ("answers just past the last segment", with_free(|events, start| start <= START_END && !is_taken(events, start))),
    (
        "has none in the window's last second",
        with_free(|events, start| start < START_END - 1 && !is_taken(events, start)),
    ),
    (
        "has none in the window's last segment",
        with_free(|events, start| start < START_END - SEGMENT_SECONDS && !is_taken(events, start)),
    ),
    (
        "has none in a programme that is on",
        with_free(|events, start| {
            start < START_END && !events.iter().any(|event| (event.start..event.end()).contains(&start))
        }),
    ),
];

/// Faults of what is refused.
pub const REFUSALS: [(&str, ChainRoomMethod); 12] = [
    ("takes the other caller's events", with_sizes(|caller| Sizes { events: other(caller).events, ..sizes(caller) })),
    ("takes a list with an event too many", with_sizes(|caller| with_events(caller, sizes(caller).events + 1))),
    ("takes no list at its limit", with_sizes(|caller| with_events(caller, sizes(caller).events - 1))),
    ("takes tag 0xFF", with_chains(wrong_chains::of_any_tags)),
    ("takes tag 0xFF behind the first descriptor", with_chains(wrong_chains::by_first_tag)),
    ("takes tag 0xFF in the first descriptor", with_chains(wrong_chains::by_later_tags)),
    ("takes tag 0xFF in the last descriptor", with_chains(wrong_chains::by_earlier_tags)),
    ("takes no byte 0xFF in a chain", with_chains(wrong_chains::without_the_byte)),
    ("takes no tag 0xFE", with_chains(wrong_chains::without_highest_legal_tag)),
    ("takes a list in which events overlap", with_follows(wrong_follows::by_starts)),
    ("takes a list in which events overlap by a second", with_follows(wrong_follows::by_a_second_too_few)),
    ("takes no list in which events touch", with_follows(wrong_follows::without_touching)),
];

const fn with_sizes(sizes: fn(Caller) -> Sizes) -> ChainRoomMethod {
    ChainRoomMethod { sizes, ..BY_RULE }
}

const fn with_holds(holds: fn(usize, &[usize]) -> bool) -> ChainRoomMethod {
    ChainRoomMethod { holds, ..BY_RULE }
}

const fn with_free(is_free: fn(&[Event], u32) -> bool) -> ChainRoomMethod {
    ChainRoomMethod { is_free, ..BY_RULE }
}

const fn with_chains(is_chain: IsChain) -> ChainRoomMethod {
    ChainRoomMethod { is_chain, ..BY_RULE }
}

const fn with_follows(follows: Follows) -> ChainRoomMethod {
    ChainRoomMethod { follows, ..BY_RULE }
}

fn sizes(caller: Caller) -> Sizes {
    caller.sizes()
}

fn other(caller: Caller) -> Sizes {
    caller.other().sizes()
}

fn with_events(caller: Caller, events: usize) -> Sizes {
    Sizes { events, ..caller.sizes() }
}

fn is_taken(events: &[Event], start: u32) -> bool {
    events.iter().any(|event| event.start == start)
}

/// Whether so many sections hold events of these bytes in this order.
fn holds(sections: usize, room: usize, events: &[usize]) -> bool {
    fewest_sections(room, events).is_some_and(|fewest| fewest <= sections)
}
