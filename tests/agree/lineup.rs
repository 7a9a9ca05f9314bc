//! A list in the making, with chains of chosen lengths in pools of its own.

use crate::lists::{new_id, rising, List, DURATION, NUMBERS, START};
use crate::pools::Pools;
use crate::random::Random;
use crate::stock::{Stock, FORBIDDEN_TAG};
use crate::times::with_durations;
use std::collections::HashSet;

pub const SEGMENT_SECONDS: u32 = 10_800;

pub struct Lineup {
    day: Stock,
    series: Stock,
    numbers: Vec<u32>,
    ids: HashSet<u32>,
}

impl Lineup {
    pub fn new() -> Lineup {
        Lineup { day: Stock::new(), series: Stock::new(), numbers: Vec::new(), ids: HashSet::new() }
    }

    /// Appends an event, whose start is behind those before it, with a chain of that many bytes, which are not 1.
    pub fn event(&mut self, random: &mut Random, start: u32, chain_length: usize) {
        let id = new_id(random, &mut self.ids, 65_536);
        let marks = random.below(8) as u32;
        let pool = if marks & 2 == 0 { &mut self.day } else { &mut self.series };
        let [offset, length] = pool.append(random, chain_length);
        // How long it takes is drawn when the next start is known.
        self.numbers.extend([id, start, 0, marks, offset, length]);
    }

    /// Appends events with chains of these lengths, all in this segment, which is behind those before it.
    pub fn segment(&mut self, random: &mut Random, index: usize, chain_lengths: &[usize]) {
        let mut starts = rising(random, chain_lengths.len(), SEGMENT_SECONDS as usize);
        // The segment's first and last second, at times.
        if random.one_in(4) && starts.insert(0) {
            starts.pop_last();
        } else if random.one_in(4) && starts.insert(SEGMENT_SECONDS - 1) {
            starts.pop_first();
        }
        for (start, chain_length) in starts.into_iter().zip(chain_lengths) {
            self.event(random, SEGMENT_SECONDS * index as u32 + start, *chain_length);
        }
    }

    /// The pools, and the list in a buffer with a few numbers behind it. Behind the chains of each pool stands a
    /// descriptor with the forbidden tag.
    pub fn lend(mut self, random: &mut Random) -> (Pools, List) {
        for pool in [&mut self.day, &mut self.series] {
            pool.descriptor(FORBIDDEN_TAG, [].into_iter());
        }
        let count = self.numbers.len() / NUMBERS;
        let starts: Vec<_> = self.numbers.chunks(NUMBERS).map(|record| record[START]).collect();
        for (record, times) in self.numbers.chunks_mut(NUMBERS).zip(with_durations(random, &starts)) {
            record[DURATION] = times.duration;
        }
        let numbers = self.numbers.len() + random.below(2 * NUMBERS);
        self.numbers.resize_with(numbers, || random.number());
        (Pools { day: self.day.pool(), series: self.series.pool() }, List { numbers: self.numbers, count })
    }
}
