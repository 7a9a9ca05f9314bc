//! Lengths of chains that take a number of bytes.

use crate::other::EVENT_FRONT;
use crate::random::Random;

/// Of so many events that take so many bytes in all, which leave them none or two at least: no chain has one.
pub fn taking(random: &mut Random, bytes: usize, events: usize) -> Vec<usize> {
    loop {
        let mut lengths = Vec::new();
        let mut left = bytes - EVENT_FRONT * events;
        for others in (1..events).rev() {
            let length = random.below(2 * left / (others + 1) + 1);
            lengths.push(if length == 1 { 0 } else { length });
            left -= lengths[lengths.len() - 1];
        }
        if left != 1 {
            lengths.push(left);
            return lengths;
        }
    }
}
