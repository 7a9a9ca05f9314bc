//! Faults of what Build and Plan go by: the caller's sizes, chains, overlap and the packing rule. Each stands in for
//! the library, and must show.

use super::packings;
use crate::other::{pack, Caller, Follows, IsChain, Method, Sizes, PAPERS};
use crate::{wrong_chains, wrong_follows};

/// Faults of Build, and of Plan.
pub const BOTH: [(&str, Method); 17] = [
    // Sizes.
    ("takes the other caller's sections", with_sizes(|caller| Sizes { section: other(caller).section, ..own(caller) })),
    ("takes the other caller's events", with_sizes(|caller| Sizes { events: other(caller).events, ..own(caller) })),
    ("takes an event too many", with_sizes(|caller| Sizes { events: own(caller).events + 1, ..own(caller) })),
    ("does not take the last event", with_sizes(|caller| Sizes { events: own(caller).events - 1, ..own(caller) })),
    ("fills a section with one byte too many", Method { packing: |room, events| pack(room + 1, events), ..PAPERS }),
    ("leaves a section's last byte", Method { packing: |room, events| pack(room - 1, events), ..PAPERS }),
    // Packing.
    ("begins a section at each programme", Method { packing: packings::one_each, ..PAPERS }),
    ("refuses a ninth event in a segment", Method { packing: packings::at_most_eight_events, ..PAPERS }),
    // The forbidden tag.
    ("takes tag 0xFF", with_chains(wrong_chains::of_any_tags)),
    ("takes tag 0xFF behind the first descriptor", with_chains(wrong_chains::by_first_tag)),
    ("takes tag 0xFF in the first descriptor", with_chains(wrong_chains::by_later_tags)),
    ("takes tag 0xFF in the last descriptor", with_chains(wrong_chains::by_earlier_tags)),
    ("takes no byte 0xFF in a chain", with_chains(wrong_chains::without_the_byte)),
    ("takes no tag 0xFE", with_chains(wrong_chains::without_highest_legal_tag)),
    // Overlap.
    ("takes a list in which events overlap", with_follows(wrong_follows::by_starts)),
    ("takes a list in which events overlap by a second", with_follows(wrong_follows::by_a_second_too_few)),
    ("takes no list in which events touch", with_follows(wrong_follows::without_touching)),
];

/// Faults of Build alone: they leave the number of sections, which is all that Plan says.
pub const BUILD: [(&str, Method); 2] = [
    ("balances the sections of a segment", Method { packing: packings::balanced, ..PAPERS }),
    ("cuts one event early", Method { packing: packings::one_event_early, ..PAPERS }),
];

fn own(caller: Caller) -> Sizes {
    caller.sizes()
}

fn other(caller: Caller) -> Sizes {
    caller.other().sizes()
}

const fn with_sizes(sizes: fn(Caller) -> Sizes) -> Method {
    Method { sizes, ..PAPERS }
}

const fn with_follows(follows: Follows) -> Method {
    Method { follows, ..PAPERS }
}

const fn with_chains(is_chain: IsChain) -> Method {
    Method { is_chain, ..PAPERS }
}
