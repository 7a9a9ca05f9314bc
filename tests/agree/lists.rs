//! Makers of lists: sound ones of any kind, and changes to one.

use crate::pools::Pools;
use crate::random::Random;
use crate::times::{self, Times};
use std::collections::{BTreeSet, HashSet};

pub const NUMBERS: usize = 6;
pub const START_END: u32 = 5_529_600;
pub const DURATION_MAX: u32 = 359_999;

// A record's fields.
pub const ID: usize = 0;
pub const START: usize = 1;
pub const DURATION: usize = 2;
pub const MARKS: usize = 3;
pub const OFFSET: usize = 4;
pub const LENGTH: usize = 5;

/// The lowest bit above each field's range. Offset and length have their pool for a range.
const ABOVE_RANGE: [usize; 4] = [16, 23, 19, 3];

/// A bit that puts a field of the record out of range. With it lost, the field would be in range again.
pub fn high_bit(random: &mut Random, field: usize) -> u32 {
    random.bit(ABOVE_RANGE[field], 31)
}

/// A buffer and a count, as they are lent to a call.
#[derive(Clone)]
pub struct List {
    pub numbers: Vec<u32>,
    pub count: usize,
}

/// What stands behind a list in its buffer: zeros, numbers of any kind, or a record of zeros and its own records again.
#[derive(Clone, Copy)]
pub enum Behind {
    Zeros,
    Any,
    Records,
}

impl Behind {
    pub const ALL: [Behind; 3] = [Behind::Zeros, Behind::Any, Behind::Records];
}

impl List {
    /// A sound list of `count` events in a buffer of so many numbers, which are at least 6 × count. Anything may stand
    /// behind it.
    pub fn sound(random: &mut Random, pools: &Pools, count: usize, numbers: usize) -> List {
        let mut list = List { numbers: Vec::with_capacity(numbers), count };
        let crowded = random.one_in(2);
        let mut ids = HashSet::new();
        for times in times::draw(random, count, crowded) {
            let mut record = record(random, pools);
            record[ID] = new_id(random, &mut ids, if crowded { count + 8 } else { 65_536 });
            record[START..MARKS].copy_from_slice(&times.numbers());
            list.numbers.extend(record);
        }
        let behind = random.pick(&Behind::ALL);
        list.in_buffer(random, numbers, behind)
    }

    /// The list, whose buffer ends with it, in a buffer of so many numbers with this behind it.
    pub fn in_buffer(mut self, random: &mut Random, numbers: usize, behind: Behind) -> List {
        match behind {
            Behind::Zeros => self.numbers.resize(numbers, 0),
            Behind::Any => self.numbers.resize_with(numbers, || random.number()),
            Behind::Records => {
                self.numbers = self.numbers.iter().copied().chain([0; NUMBERS]).cycle().take(numbers).collect();
            }
        }
        self
    }

    pub fn set(&mut self, place: usize, field: usize, values: &[u32]) {
        let at = NUMBERS * place + field;
        self.numbers[at..at + values.len()].copy_from_slice(values);
    }

    pub fn get(&self, place: usize, field: usize) -> u32 {
        self.numbers[NUMBERS * place + field]
    }

    pub fn times(&self, place: usize) -> Times {
        Times { start: self.get(place, START), duration: self.get(place, DURATION) }
    }

    /// What is lent, for the message about a difference.
    pub fn describe(&self, pools: &Pools) -> String {
        let records: Vec<_> = self.numbers.chunks(NUMBERS).take(8).collect();
        format!(
            "count {}, buffer of {} numbers, first {records:?}\n  day pool of {} bytes, series pool of {}",
            self.count,
            self.numbers.len(),
            pools.day.bytes().len(),
            pools.series.bytes().len(),
        )
    }

    /// The list with these values from one field of a record on.
    pub fn with(&self, place: usize, field: usize, values: &[u32]) -> List {
        let mut changed = self.clone();
        changed.set(place, field, values);
        changed
    }

    /// The list with an event more, by its start; among events with its start as the first or as the last.
    pub fn with_event(&self, record: [u32; NUMBERS], is_first: bool) -> List {
        let stands_before = |place: &usize| {
            let start = self.get(*place, START);
            start < record[START] || start == record[START] && !is_first
        };
        let place = (0..self.count).filter(stands_before).count();
        let mut longer = self.with_count(self.count + 1);
        longer.numbers.splice(NUMBERS * place..NUMBERS * place, record);
        longer
    }

    pub fn with_count(&self, count: usize) -> List {
        List { count, ..self.clone() }
    }
}

/// A record in range whose part is a chain.
pub fn record(random: &mut Random, pools: &Pools) -> [u32; NUMBERS] {
    let start = random.below(START_END as usize) as u32;
    let duration = 1 + random.below(DURATION_MAX as usize) as u32;
    let marks = random.below(8) as u32;
    let [offset, length] = pools.of_marks(marks).chain(random);
    [random.number() & 0xFFFF, start, duration, marks, offset, length]
}

pub fn new_id(random: &mut Random, ids: &mut HashSet<u32>, end: usize) -> u32 {
    loop {
        let id = random.below(end) as u32;
        if ids.insert(id) {
            return id;
        }
    }
}

/// That many numbers below `end`, rising. There are as many.
pub fn rising(random: &mut Random, count: usize, end: usize) -> BTreeSet<u32> {
    let mut numbers = BTreeSet::new();
    while numbers.len() < count {
        numbers.insert(random.below(end) as u32);
    }
    numbers
}
