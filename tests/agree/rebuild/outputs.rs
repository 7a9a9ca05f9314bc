//! Outputs just long enough, a byte short, empty, and longer than the file.

use super::case::Case;
use super::comparison::Comparison;
use crate::other::Previous;
use crate::random::Random;
use crate::read::{rival, Given};

pub fn run(comparison: &mut Comparison) -> Result<(), String> {
    let random = &mut comparison.groups.begin("outputs");
    for segments in [&[][..], &[(0, 1)], &[(1, 2), (33, 1)]] {
        let given = Given::short(comparison.caller, random, segments);
        rooms(comparison, random, &given)?;
    }
    for _ in 0..30 {
        let given = Given::some(comparison.caller, random);
        rooms(comparison, random, &given)?;
    }
    Ok(())
}

/// The previous file is of the same events or of others, and longer or shorter than the new one.
fn rooms(comparison: &mut Comparison, random: &mut Random, given: &Given) -> Result<(), String> {
    let before = Given::some(comparison.caller, random);
    let need = given.built().expect("some events are packable").bytes().len();
    for before in [given, &before] {
        let file = rival(random, before).bytes();
        let previous = Previous { file: &file, base_day: before.base_day };
        let mut rooms = vec![0, 1, need / 2, need - 1, need, need + 1, need + 5_000];
        if need <= 200 {
            rooms.extend(0..need + 20);
        }
        for room in rooms {
            let number = if room < need { 11 } else { 0 };
            comparison.answers((number, need), Case::of(previous, given, room))?;
        }
    }
    Ok(())
}
