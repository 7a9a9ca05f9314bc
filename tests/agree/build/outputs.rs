//! Outputs just long enough, a byte short, empty, and longer than the file.

use super::comparison::Comparison;
use super::request::Request;
use super::segments::nearby;
use crate::lineup::Lineup;
use crate::lists::rising;
use crate::random::Random;

pub fn run(comparison: &mut Comparison) -> Result<(), String> {
    let random = &mut comparison.groups.begin("outputs");
    let many = comparison.caller.sizes().events / 10;
    for (segments, times) in [(0, 1), (1, 30), (2, 30), (20, 20), (many, 2)] {
        for _ in 0..times {
            rooms(comparison, random, segments)?;
        }
    }
    Ok(())
}

/// Events in so many segments, and outputs of many lengths; for a short file of every length.
fn rooms(comparison: &mut Comparison, random: &mut Random, segments: usize) -> Result<(), String> {
    let mut lineup = Lineup::new();
    let end = random.pick(&[segments + 1, 512]);
    for index in rising(random, segments, end) {
        nearby(comparison.caller, random, &mut lineup, index as usize);
    }
    let (pools, list) = lineup.lend(random);
    let need = comparison.need(&pools, &list);
    let mut rooms = vec![0, 1, need / 2, need - 1, need, need + 1, need + 18, need + 5_000];
    if need <= 400 {
        rooms.extend(0..need + 40);
    }
    for room in rooms {
        let number = if room < need { 11 } else { 0 };
        comparison.answers((number, need), &pools, &list, Request::legal(random, room))?;
    }
    Ok(())
}
