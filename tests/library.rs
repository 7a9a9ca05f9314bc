//! The library's calls, through its Rust wrapper, in the shapes of the other implementation's, so that one can stand in
//! for the other. The wrapper's cases give number and value back.

use crate::chirdaluko::{self, Pools, ReadRefusal};
use crate::other::{Answer, Built, Caller, ChainRoom, Identity, Lent, Place, Plan, Previous, Reading, Rolled, Triplet};

pub use crate::chirdaluko::crc32;

pub fn edit(caller: Caller, list: &mut [u32], count: usize, day: &[u8], series: &[u8], script: &[u8]) -> Answer {
    match chirdaluko::edit(served(caller), list, count, Pools { day, series }, script) {
        Ok(count) => Answer { number: 0, value: count, count },
        Err(refusal) => Answer { number: refusal.number(), value: refusal.value(), count: refusal.count() },
    }
}

pub fn place(list: &[u32], count: usize, start: u32) -> Place {
    let chirdaluko::Place { place, looked } = chirdaluko::place(list, count, start);
    Place { place, looked }
}

/// A refusal has no length, and none is a success: the wrapper knows no other.
pub fn chain_room(caller: Caller, lent: &Lent, start: u32) -> ChainRoom {
    match chirdaluko::chain_room(served(caller), lent.list, lent.count, pools(lent), start) {
        Ok(length) => ChainRoom { number: 0, length },
        Err(refusal) => ChainRoom { number: refusal.number(), length: None },
    }
}

/// A refused roll has value 0, and the count and base day that were given: the wrapper knows no other.
pub fn roll(caller: Caller, list: &mut [u32], count: usize, day: &[u8], series: &[u8], base_day: u32) -> Rolled {
    match chirdaluko::roll(served(caller), list, count, Pools { day, series }, base_day) {
        Ok(chirdaluko::Rolled { count, base_day }) => Rolled { number: 0, value: count, count, base_day },
        Err(refusal) => Rolled { number: refusal.number(), value: 0, count, base_day },
    }
}

pub fn build(caller: Caller, lent: &Lent, base_day: u32, identity: Identity, output: &mut [u8]) -> Built {
    let Identity { triplet: Triplet { service_id, transport_stream_id, original_network_id }, versions } = identity;
    let identity = chirdaluko::Identity { service_id, transport_stream_id, original_network_id, versions };
    match chirdaluko::build(served(caller), lent.list, lent.count, pools(lent), base_day, identity, output) {
        Ok(length) => Built { number: 0, value: length },
        Err(refusal) => Built { number: refusal.number(), value: refusal.value() },
    }
}

pub fn rebuild(caller: Caller, previous: Previous, lent: &Lent, base_day: u32, output: &mut [u8]) -> Built {
    let previous = chirdaluko::Previous { file: previous.file, base_day: previous.base_day };
    match chirdaluko::rebuild(served(caller), previous, lent.list, lent.count, pools(lent), base_day, output) {
        Ok(length) => Built { number: 0, value: length },
        Err(refusal) => Built { number: refusal.number(), value: refusal.value() },
    }
}

pub fn plan(caller: Caller, lent: &Lent, plan: &mut Plan) {
    chirdaluko::plan(served(caller), lent.list, lent.count, pools(lent), plan);
}

pub fn read(caller: Caller, file: &[u8], base_day: u32, records: &mut [u32]) -> Reading {
    reading(chirdaluko::read(served(caller), file, base_day, records))
}

pub fn check(caller: Caller, file: &[u8], base_day: u32) -> Reading {
    reading(chirdaluko::check(served(caller), file, base_day))
}

fn served(caller: Caller) -> chirdaluko::Caller {
    match caller {
        Caller::Broadcast => chirdaluko::Caller::Broadcast,
        Caller::Cable => chirdaluko::Caller::Cable,
    }
}

fn pools<'a>(lent: &Lent<'a>) -> Pools<'a> {
    Pools { day: lent.day, series: lent.series }
}

/// A refused reading has count 0 and identity 0: the wrapper knows no other.
fn reading(said: Result<chirdaluko::Reading, ReadRefusal>) -> Reading {
    match said {
        Ok(chirdaluko::Reading { count, identity }) => {
            let chirdaluko::Identity { service_id, transport_stream_id, original_network_id, versions } = identity;
            let triplet = Triplet { service_id, transport_stream_id, original_network_id };
            let identity = Identity { triplet, versions };
            Reading { number: 0, value: count, count, identity }
        }
        Err(refusal) => crate::other::refused(refusal.number(), refusal.value()),
    }
}
