//! Roll: 02, W-205.

use super::caller::Caller;
use super::event::{follows, is_chain, Event, Follows, IsChain, Pools, NUMBERS};
use super::list::List;

const DAY_SECONDS: u32 = 86_400;
const BASE_DAY_LAST: u32 = 65_472;

const UNSOUND: u32 = 12;
const NO_DAY_AFTER: u32 = 31;

/// 01's number and value, the count then held, and the base day that starts then count from.
#[derive(Clone, Copy, Debug, PartialEq)]
pub struct Rolled {
    pub number: u32,
    pub value: usize,
    pub count: usize,
    pub base_day: u32,
}

/// What a roll goes by: the most events of a sound list, which parts are chains, which event may be the next behind
/// which, the base days that are refused, and what becomes of an event.
#[derive(Clone, Copy)]
pub struct RollMethod {
    pub events_max: fn(Caller) -> usize,
    pub is_chain: IsChain,
    pub follows: Follows,
    /// Whether no base day comes after this one.
    pub is_last: fn(u32) -> bool,
    /// The event as the next base day has it, unless it leaves.
    pub next_day: fn(&Event) -> Option<Event>,
}

pub const ROLL_PAPERS: RollMethod = RollMethod {
    events_max: |caller| caller.sizes().events,
    is_chain,
    follows,
    // "base day already 65,472 or more"
    is_last: |base_day| base_day >= BASE_DAY_LAST,
    // "Records with start below 86,400 leave, the others have 86,400 taken off"
    next_day: |event| event.start.checked_sub(DAY_SECONDS).map(|start| Event { start, ..*event }),
};

pub fn roll(caller: Caller, buffer: &mut [u32], count: usize, day: &[u8], series: &[u8], base_day: u32) -> Rolled {
    roll_by(ROLL_PAPERS, caller, buffer, count, day, series, base_day)
}

/// Roll by another method than the papers': the self-check's faults have their own.
pub fn roll_by(
    method: RollMethod,
    caller: Caller,
    buffer: &mut [u32],
    count: usize,
    day: &[u8],
    series: &[u8],
    base_day: u32,
) -> Rolled {
    let refused = |number| Rolled { number, value: 0, count, base_day };
    if (method.is_last)(base_day) {
        return refused(NO_DAY_AFTER);
    }
    let pools = Pools { day, series, is_chain: method.is_chain };
    let Some(list) = List::read((method.events_max)(caller), method.follows, buffer, count, pools) else {
        return refused(UNSOUND);
    };
    let staying: Vec<_> = list.events().filter_map(method.next_day).collect();
    for (place, record) in buffer[..NUMBERS * count].chunks_mut(NUMBERS).enumerate() {
        // "freed records become zeros"
        let numbers = staying.get(place).map_or([0; NUMBERS], Event::numbers);
        record.copy_from_slice(&numbers);
    }
    Rolled { number: 0, value: staying.len(), count: staying.len(), base_day: base_day + 1 }
}
