//! The self-check's faults of chain_room, each as a call that stands in for the library.

use super::answer_faults::{self, changed, Change};
use super::comparison::RoomCall;
use super::segment_faults::{self, Segment};
use super::{method_faults, refusal_faults};
use crate::other::CHAIN_ROOM_BY_PACKING_RULE as BY_RULE;
use crate::other::{chain_room_by, Caller, ChainRoom, ChainRoomMethod, Lent};

pub type Fault = (&'static str, Box<dyn Fn(Caller, &Lent, u32) -> ChainRoom>);

/// Of what fits: they show also in what is built with one more event.
pub fn of_lengths() -> Vec<Fault> {
    let by_method = method_faults::LENGTHS.into_iter().map(by_method);
    let by_segment = segment_faults::EVENTS.into_iter().map(by_segment);
    by_method.chain(by_segment).chain(answer_faults::LENGTHS.into_iter().map(by_change)).collect()
}

/// Of starts, of a segment's ends, and of what plays no part.
pub fn of_starts() -> Vec<Fault> {
    let by_method = method_faults::STARTS.into_iter().map(by_method);
    let by_segment = segment_faults::ENDS.into_iter().map(by_segment);
    by_method.chain(by_segment).chain(answer_faults::OTHERS.into_iter().map(by_change)).collect()
}

/// Of what is refused.
pub fn of_refusals() -> Vec<Fault> {
    let by_call = refusal_faults::ALL.into_iter().map(by_call);
    by_call.chain(method_faults::REFUSALS.into_iter().map(by_method)).collect()
}

fn by_call((fault, call): (&'static str, RoomCall)) -> Fault {
    (fault, Box::new(call))
}

fn by_method((fault, method): (&'static str, ChainRoomMethod)) -> Fault {
    (fault, Box::new(move |caller, lent: &Lent, start| chain_room_by(method, caller, lent, start)))
}

fn by_segment((fault, segment): (&'static str, Segment)) -> Fault {
    by_method((fault, ChainRoomMethod { segment, ..BY_RULE }))
}

fn by_change((fault, change): (&'static str, Change)) -> Fault {
    (fault, Box::new(move |caller, lent: &Lent, start| changed(change, caller, lent, start)))
}
