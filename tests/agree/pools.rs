//! Makers of pools, of parts that are chains, and of parts that are none.

use crate::guarded::Guarded;
use crate::random::Random;
use crate::stock::{tag, Stock, FORBIDDEN_TAG};

/// A lent pool, most often of descriptors from end to end.
#[derive(Clone)]
pub struct Pool {
    lent: Guarded<u8>,
    as_made: Guarded<u8>,
    /// Where a descriptor starts, and last the pool's end.
    cuts: Vec<usize>,
    /// The descriptors with the forbidden tag.
    forbidden: Vec<usize>,
}

impl Pool {
    pub fn new(bytes: &[u8], cuts: Vec<usize>) -> Pool {
        let lent = Guarded::new(bytes, 0);
        let forbidden = (0..cuts.len() - 1).filter(|descriptor| bytes[cuts[*descriptor]] == FORBIDDEN_TAG).collect();
        Pool { as_made: lent.clone(), lent, cuts, forbidden }
    }

    /// A chain of that many bytes, which are not 1: no chain has one byte.
    pub fn of_length(random: &mut Random, length: usize) -> Pool {
        let mut stock = Stock::new();
        stock.append(random, length);
        stock.pool()
    }

    /// A chain with the forbidden tag's byte wherever else a chain may have it: as length bytes, and in all bodies. A
    /// section of either caller holds it.
    pub fn of_forbidden_bytes(random: &mut Random) -> Pool {
        let mut stock = Stock::new();
        for length in [255, 0, 1, 255, 2, 0, 3, 255] {
            stock.descriptor(tag(random), vec![FORBIDDEN_TAG; length].into_iter());
        }
        stock.pool()
    }

    /// The same pool with this tag for one descriptor.
    pub fn with_tag(&self, descriptor: usize, tag: u8) -> Pool {
        let mut bytes = self.bytes().to_vec();
        bytes[self.cuts[descriptor]] = tag;
        Pool::new(&bytes, self.cuts.clone())
    }

    /// The same pool with the forbidden tag for some of its descriptors, the last one aside.
    fn with_forbidden_tags(&self, random: &mut Random) -> Pool {
        let mut bytes = self.bytes().to_vec();
        let before_last = self.descriptors().saturating_sub(1);
        let one = random.below(before_last.max(1));
        for (descriptor, cut) in self.cuts[..before_last].iter().enumerate() {
            if descriptor == one || random.one_in(8) {
                bytes[*cut] = FORBIDDEN_TAG;
            }
        }
        Pool::new(&bytes, self.cuts.clone())
    }

    /// The same pool with one descriptor's length byte one off, which leaves no chain up to the end if it is the last
    /// one's.
    pub fn with_length_off(&self, descriptor: usize) -> Pool {
        let mut bytes = self.bytes().to_vec();
        let length = &mut bytes[self.cuts[descriptor] + 1];
        *length = if *length == 255 { 254 } else { *length + 1 };
        Pool::new(&bytes, self.cuts.clone())
    }

    /// This pool's bytes, and the other's behind them.
    pub fn followed_by(&self, other: &Pool) -> Pool {
        let behind = other.cuts[1..].iter().map(|cut| self.bytes().len() + cut);
        Pool::new(&[self.bytes(), other.bytes()].concat(), self.cuts.iter().copied().chain(behind).collect())
    }

    pub fn descriptors(&self) -> usize {
        self.cuts.len() - 1
    }

    pub fn bytes(&self) -> &[u8] {
        self.lent.inside()
    }

    pub fn is_untouched(&self) -> bool {
        self.lent == self.as_made
    }

    /// Offset and length of some chain in the pool, of at most a few descriptors.
    pub fn chain(&self, random: &mut Random) -> [u32; 2] {
        if random.one_in(8) {
            return [random.below(self.bytes().len() + 1) as u32, 0];
        }
        let first = random.below(self.cuts.len());
        let end = (first + random.below(6)).min(self.descriptors());
        let behind = &self.forbidden[self.forbidden.partition_point(|descriptor| *descriptor < first)..];
        self.between(first, behind.first().map_or(end, |forbidden| end.min(*forbidden)), 0)
    }

    /// Offset and length of the last descriptor, if there is one and it is a chain.
    pub fn last_descriptor(&self) -> Option<[u32; 2]> {
        let last = self.descriptors().checked_sub(1)?;
        (self.forbidden.last() != Some(&last)).then(|| self.between(last, last + 1, 0))
    }

    /// Offsets and lengths (of two bytes, as PUT has them) that are outside the pool or no chain.
    pub fn no_chains(&self, random: &mut Random) -> Vec<[u32; 2]> {
        let end = self.bytes().len() as u32;
        let mut parts =
            vec![[end, 1], [end + 1, 0], [u32::MAX, 0], [u32::MAX, 1], [u32::MAX - 1, 4], [u32::MAX, 65_535]];
        parts.extend(self.beyond_by_a_bit(random, 15));
        parts.extend(self.with_forbidden_tag(random));
        let last = self.descriptors();
        if last > 0 {
            let one = random.below(last);
            parts.push([self.cuts[one] as u32, 1]);
            parts.push(self.between(one, one + 1, -1));
            parts.push(self.between(one, one + 1, 1));
            parts.push(self.between(last - 1, last, 1));
        }
        parts
    }

    /// Parts that would be chains but for the forbidden tag of a descriptor, which is alone, first, last or between
    /// others.
    pub fn with_forbidden_tag(&self, random: &mut Random) -> Vec<[u32; 2]> {
        if self.forbidden.is_empty() {
            return Vec::new();
        }
        let one = random.pick(&self.forbidden);
        let first = one.saturating_sub(1 + random.below(3));
        let end = (one + 2 + random.below(3)).min(self.descriptors());
        [(one, one + 1), (one, end), (first, one + 1), (first, end)]
            .map(|(first, end)| self.between(first, end, 0))
            .into()
    }

    /// A chain with a bit above the pool's end put into its offset, and into its length, whose highest bit is given.
    /// With that bit lost it would be a chain.
    pub fn beyond_by_a_bit(&self, random: &mut Random, length_bit: usize) -> Vec<[u32; 2]> {
        let [offset, length] = self.chain(random);
        let lowest = self.bytes().len().checked_ilog2().map_or(0, |bit| bit as usize + 1);
        let mut parts = vec![[offset | random.bit(lowest, 31), length]];
        if lowest <= length_bit {
            parts.push([offset, length | random.bit(lowest, length_bit)]);
        }
        parts
    }

    /// Offset and length from one descriptor up to another, or up to the end, and so many bytes more.
    pub fn between(&self, first: usize, end: usize, more: i64) -> [u32; 2] {
        let length = (self.cuts[end] - self.cuts[first]) as i64 + more;
        [self.cuts[first] as u32, length as u32]
    }
}

pub struct Pools {
    pub day: Pool,
    pub series: Pool,
}

impl Pools {
    /// Pools of those lengths, neither of which is 1. Some descriptors, but never a pool's last, have the
    /// forbidden tag.
    pub fn of_lengths(random: &mut Random, day: usize, series: usize) -> Pools {
        let Pools { day, series } = Pools::of_chains(random, day, series);
        Pools { day: day.with_forbidden_tags(random), series: series.with_forbidden_tags(random) }
    }

    /// Pools of those lengths, neither of which is 1, each a chain from end to end.
    pub fn of_chains(random: &mut Random, day: usize, series: usize) -> Pools {
        Pools { day: Pool::of_length(random, day), series: Pool::of_length(random, series) }
    }

    /// The pool that a record with these marks has its part in.
    pub fn of_marks(&self, marks: u32) -> &Pool {
        if marks & 2 == 0 {
            &self.day
        } else {
            &self.series
        }
    }
}
