//! Chains of which one descriptor gets the forbidden tag (02, W-202), and their parts with it and beside it.

use crate::pools::{Pool, Pools};
use crate::random::Random;
use crate::stock::{FORBIDDEN_TAG, HIGHEST_LEGAL_TAG};

/// Marks of a record that has its part in the day pool, and in the series pool.
const DAY: u32 = 1;
const SERIES: u32 = 6;

/// The chain with the forbidden tag in one pool, and with the highest legal one in the other.
pub struct Tagged {
    pub pools: Pools,
    /// Marks, offset and length of parts, and whether each is a chain.
    pub parts: Vec<([u32; 3], bool)>,
}

impl Tagged {
    /// Chains of these lengths, and one with the tag's byte wherever it is legal, each with the tag for the first
    /// descriptor, the last and one between, and in each pool.
    pub fn all(random: &mut Random, lengths: &[usize]) -> Vec<Tagged> {
        let mut chains: Vec<_> = lengths.iter().map(|length| Pool::of_length(random, *length)).collect();
        chains.push(Pool::of_forbidden_bytes(random));
        let mut all = Vec::new();
        for chain in &chains {
            for descriptor in ends_and_one_between(random, chain.descriptors()) {
                all.extend([DAY, SERIES].map(|marks| Tagged::new(chain, descriptor, marks)));
            }
        }
        all
    }

    /// This descriptor has the forbidden tag in the pool that the marks choose.
    fn new(chain: &Pool, descriptor: usize, marks: u32) -> Tagged {
        let [forbidden, legal] = [FORBIDDEN_TAG, HIGHEST_LEGAL_TAG].map(|tag| chain.with_tag(descriptor, tag));
        let (pools, other_marks) = match marks {
            DAY => (Pools { day: forbidden, series: legal }, SERIES),
            _ => (Pools { day: legal, series: forbidden }, DAY),
        };
        let end = chain.descriptors();
        let with = [(0, end), (0, descriptor + 1), (descriptor, end), (descriptor, descriptor + 1)];
        let beside = [(0, descriptor), (descriptor + 1, end)];
        let mut parts = Vec::new();
        for (first, end) in with.into_iter().chain(beside) {
            let [offset, length] = chain.between(first, end, 0);
            parts.push(([marks, offset, length], !(first..end).contains(&descriptor)));
            parts.push(([other_marks, offset, length], true));
        }
        Tagged { pools, parts }
    }
}

/// The first of so many places, one between and the last, as far as there are as many.
pub fn ends_and_one_between(random: &mut Random, count: usize) -> Vec<usize> {
    let between = 1 + random.below(count.saturating_sub(2).max(1));
    let mut places = vec![0, between, count.saturating_sub(1)];
    places.retain(|place| *place < count);
    places.dedup();
    places
}
