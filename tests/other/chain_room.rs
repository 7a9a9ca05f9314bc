//! How much text still fits: 02, W-201 and W-206. The answer comes from trying every length, against every packing in
//! order of start; by halving it comes sooner.

use super::caller::{Caller, Sizes};
use super::event::{follows, is_chain, start_in_range, Event, Follows, IsChain, Pools};
use super::list::List;
use super::needed::{fewest_sections, filled_sections};
use super::schedule::{Lent, EVENT_FRONT, SECTIONS_MAX, SEGMENT_SECONDS};

const UNSOUND: u32 = 12;

/// 01's number, and the largest chain length that fits, if one does.
#[derive(Clone, Copy, Debug, PartialEq)]
pub struct ChainRoom {
    pub number: u32,
    pub length: Option<usize>,
}

/// What the answer goes by: the caller's sizes, which parts are chains, which event may be the next behind which, where
/// one more may start, what its segment holds, and which lengths are tried and fit.
#[derive(Clone, Copy)]
pub struct ChainRoomMethod {
    pub sizes: fn(Caller) -> Sizes,
    pub is_chain: IsChain,
    pub follows: Follows,
    /// Whether one more event may start there, as far as the start alone says.
    pub is_free: fn(&[Event], u32) -> bool,
    /// The bytes of each event of the start's segment, in order of start, and the place of one more among them.
    pub segment: fn(&[Event], u32) -> (Vec<usize>, usize),
    pub is_length: fn(usize) -> bool,
    /// Whether a segment's sections, each with so many bytes for events, hold events of these bytes in this order.
    pub holds: fn(usize, &[usize]) -> bool,
}

pub const CHAIN_ROOM_PAPERS: ChainRoomMethod = ChainRoomMethod {
    sizes: Caller::sizes,
    is_chain,
    follows,
    // "the start is taken, is past the last segment"
    is_free: |events, start| start_in_range(start) && events.iter().all(|event| event.start != start),
    segment,
    // "The length 1, which no chain has, is never given"
    is_length: |length| length != 1,
    holds: |room, events| fewest_sections(room, events).is_some_and(|sections| sections <= SECTIONS_MAX),
};

/// By the packing rule alone, which is quicker for a segment of many events.
pub const CHAIN_ROOM_BY_PACKING_RULE: ChainRoomMethod = ChainRoomMethod {
    holds: |room, events| filled_sections(room, events).is_some_and(|sections| sections <= SECTIONS_MAX),
    ..CHAIN_ROOM_PAPERS
};

/// Tries the lengths from the longest that a section holds down to 0.
pub fn chain_room_by(method: ChainRoomMethod, caller: Caller, lent: &Lent, start: u32) -> ChainRoom {
    let sizes = (method.sizes)(caller);
    answer(method, sizes, lent, start, |mut events, place| {
        let fits = |length: &usize| {
            events[place] = EVENT_FRONT + length;
            (method.holds)(sizes.room(), &events)
        };
        (0..=sizes.chain_max()).rev().filter(|length| (method.is_length)(*length)).find(fits)
    })
}

/// The same by the packing rule and halving, since no length fits where a shorter one does not.
pub fn chain_room_halved(caller: Caller, lent: &Lent, start: u32) -> ChainRoom {
    let method = CHAIN_ROOM_BY_PACKING_RULE;
    let sizes = caller.sizes();
    answer(method, sizes, lent, start, |mut events, place| {
        let (mut fitting, mut above) = (0, sizes.chain_max() + 1);
        let mut fits = |length| {
            events[place] = EVENT_FRONT + length;
            (method.holds)(sizes.room(), &events)
        };
        if !fits(0) {
            return None;
        }
        while above - fitting > 1 {
            let middle = (fitting + above) / 2;
            if fits(middle) {
                fitting = middle;
            } else {
                above = middle;
            }
        }
        // "0 is given then."
        Some(if fitting == 1 { 0 } else { fitting })
    })
}

/// The answer, if `longest` finds the longest chain for the event in this place of a segment's events.
fn answer(
    method: ChainRoomMethod,
    sizes: Sizes,
    lent: &Lent,
    start: u32,
    longest: impl FnOnce(Vec<usize>, usize) -> Option<usize>,
) -> ChainRoom {
    let pools = Pools { is_chain: method.is_chain, ..lent.pools() };
    let Some(list) = List::read(sizes.events, method.follows, lent.list, lent.count, pools) else {
        return ChainRoom { number: UNSOUND, length: None };
    };
    let events: Vec<_> = list.events().copied().collect();
    if !(method.is_free)(&events, start) {
        return ChainRoom { number: 0, length: None };
    }
    let (mut bytes, place) = (method.segment)(&events, start);
    bytes.insert(place, EVENT_FRONT);
    ChainRoom { number: 0, length: longest(bytes, place) }
}

fn segment(events: &[Event], start: u32) -> (Vec<usize>, usize) {
    let index = start / SEGMENT_SECONDS;
    let events: Vec<_> = events.iter().filter(|event| event.start / SEGMENT_SECONDS == index).collect();
    let place = events.iter().filter(|event| event.start < start).count();
    (events.into_iter().map(|event| EVENT_FRONT + event.length as usize).collect(), place)
}
