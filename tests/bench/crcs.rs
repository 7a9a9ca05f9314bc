//! CRC_32, beside one table with a byte a step.

use crate::library;
use crate::other;
use crate::random::Random;
use crate::table::{head, row, shortest, size_name, KB};
use std::hint::black_box;
use std::time::Instant;

const SIZES: [(usize, u32); 4] = [(64, 1_000), (512, 200), (4 * KB, 50), (1_024 * KB, 1)];

pub fn run(random: &mut Random) {
    head("CRC_32, beside one table");
    for (size, calls) in SIZES {
        let input = bytes(random, size);
        let subjects = [library::crc32, other::crc32_by_table];
        assert_eq!(subjects.map(|crc| crc(&input)), [other::crc32(&input); 2], "the two disagree");
        let times = subjects.map(|crc| {
            shortest(|| {
                let begun = Instant::now();
                for _ in 0..calls {
                    black_box(crc(black_box(&input)));
                }
                begun.elapsed() / calls
            })
        });
        row(&size_name(size), size, times, None);
    }
}

/// One call of the library with 1 MB.
pub fn once(random: &mut Random) {
    black_box(library::crc32(&bytes(random, 1_024 * KB)));
}

fn bytes(random: &mut Random, size: usize) -> Vec<u8> {
    (0..size).map(|_| random.byte()).collect()
}
