//! Read of the files that Build makes, with a record buffer and without.

use crate::inputs::{largest, rows, Input, BASE_DAY};
use crate::library;
use crate::other::{self, Reading};
use crate::random::Random;
use crate::table::shortest;
use std::hint::black_box;
use std::time::Instant;

/// Enough for every file.
const RECORDS: usize = 12_288;

pub fn run(inputs: &[Input]) {
    rows("check, MB of the file", inputs, check_times);
    rows("Read, MB of the file", inputs, read_times);
}

/// One call of the library with the largest file, with a record buffer and without.
pub fn once(random: &mut Random) {
    let input = largest(random);
    let mut records = vec![0; RECORDS];
    assert_eq!(library::read(input.caller, &input.file(), BASE_DAY, &mut records), accepted(&input), "a refusal");
}

pub fn once_checked(random: &mut Random) {
    let input = largest(random);
    assert_eq!(library::check(input.caller, &input.file(), BASE_DAY), accepted(&input), "a refusal");
}

/// What an accepted file of these events is answered.
fn accepted(input: &Input) -> Reading {
    let count = input.lent().count;
    Reading { number: 0, value: count, count, identity: input.identity() }
}

fn check_times(input: &Input) -> [f64; 2] {
    let file = input.file();
    [library::check, other::check].map(|check| {
        assert_eq!(check(input.caller, &file, BASE_DAY), accepted(input), "a refusal");
        shortest(|| {
            let begun = Instant::now();
            black_box(check(input.caller, black_box(&file), BASE_DAY));
            begun.elapsed()
        })
    })
}

fn read_times(input: &Input) -> [f64; 2] {
    let file = input.file();
    let mut records = [vec![0; RECORDS], vec![0; RECORDS]];
    assert_eq!(library::read(input.caller, &file, BASE_DAY, &mut records[0]), accepted(input), "a refusal");
    assert_eq!(other::read(input.caller, &file, BASE_DAY, &mut records[1]), accepted(input), "a refusal");
    assert!(records[0] == records[1], "the two disagree");
    let records = &mut records[0];
    [library::read, other::read].map(|read| {
        shortest(|| {
            let begun = Instant::now();
            black_box(read(input.caller, black_box(&file), BASE_DAY, records));
            begun.elapsed()
        })
    })
}
