//! What a call of Build is given besides the list and the pools.

use crate::other::{Identity, Triplet};
use crate::random::Random;

pub const BASE_DAY_MAX: u32 = 65_472;
pub const VERSION_MAX: u8 = 31;

#[derive(Clone, Copy, Debug)]
pub struct Request {
    pub base_day: u32,
    pub identity: Identity,
    /// The output's length.
    pub room: usize,
}

impl Request {
    /// A legal base day, at times the least or the most, any ids and legal versions.
    pub fn legal(random: &mut Random, room: usize) -> Request {
        let day = random.below(BASE_DAY_MAX as usize + 1) as u32;
        let triplet = Triplet {
            service_id: random.number() as u16,
            transport_stream_id: random.number() as u16,
            original_network_id: random.number() as u16,
        };
        Request {
            base_day: random.pick(&[day, day, day, 0, BASE_DAY_MAX]),
            identity: Identity { triplet, versions: versions(random) },
            room,
        }
    }
}

/// Legal versions: the same for every table, for every table but one, or any for each.
fn versions(random: &mut Random) -> [u8; 16] {
    let mut versions = [version(random); 16];
    match random.below(4) {
        0 => {}
        1 => versions[random.below(16)] = version(random),
        _ => versions = versions.map(|_| version(random)),
    }
    versions
}

/// A legal version, at times the least or the most.
fn version(random: &mut Random) -> u8 {
    let any = random.below(usize::from(VERSION_MAX) + 1) as u8;
    random.pick(&[any, any, any, 0, VERSION_MAX])
}
