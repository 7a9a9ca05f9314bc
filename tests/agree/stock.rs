//! A pool in the making: chains of chosen lengths are appended to it.

use crate::pools::Pool;
use crate::random::Random;

/// A chain with this tag is no chain: 02, W-202. As a length byte, and in a body, it may have this byte.
pub const FORBIDDEN_TAG: u8 = 0xFF;
pub const HIGHEST_LEGAL_TAG: u8 = 0xFE;

pub struct Stock {
    bytes: Vec<u8>,
    /// Where a descriptor starts, and last the end.
    cuts: Vec<usize>,
}

impl Stock {
    pub fn new() -> Stock {
        Stock { bytes: Vec::new(), cuts: vec![0] }
    }

    /// Appends a chain of that many bytes, which are not 1: no chain has one byte. Returns its offset and length.
    pub fn append(&mut self, random: &mut Random, length: usize) -> [u32; 2] {
        let offset = self.bytes.len();
        let end = offset + length;
        while self.bytes.len() < end {
            let left = end - self.bytes.len();
            let most = if random.one_in(4) { 257 } else { 16 };
            let mut descriptor = (2 + random.below(most - 1)).min(left);
            if left - descriptor == 1 {
                // One byte would stay, which is no descriptor.
                descriptor = if descriptor > 2 { descriptor - 1 } else { left };
            }
            let tag = tag(random);
            self.descriptor(tag, (2..descriptor).map(|_| random.byte()));
        }
        [offset as u32, length as u32]
    }

    /// Appends a descriptor, whose body has at most 255 bytes.
    pub fn descriptor(&mut self, tag: u8, body: impl ExactSizeIterator<Item = u8>) {
        self.bytes.extend([tag, body.len() as u8]);
        self.bytes.extend(body);
        self.cuts.push(self.bytes.len());
    }

    pub fn pool(self) -> Pool {
        Pool::new(&self.bytes, self.cuts)
    }
}

/// A tag that a chain may have.
pub fn tag(random: &mut Random) -> u8 {
    random.below(usize::from(HIGHEST_LEGAL_TAG) + 1) as u8
}
