//! Counts below, at and above the records that the buffer has, and buffers with a part of a record behind the last.

use super::comparison::Comparison;
use super::shapes::{self, around, with_starts};
use crate::lists::{List, NUMBERS, START, START_END};
use crate::other::Place;
use crate::random::Random;

const RECORDS: [usize; 12] = [0, 1, 2, 7, 8, 9, 16, 17, 255, 256, 257, 2_048];

pub fn run(comparison: &mut Comparison) -> Result<(), String> {
    let random = &mut comparison.begin("buffers");
    for records in RECORDS {
        for part in 0..NUMBERS {
            for shape in shapes::ALL {
                let starts = shape(random, records);
                let list = with_part(random, &starts, part);
                let asked = some_around(random, &starts);
                for count in counts(records, part) {
                    comparison.alike(&list.with_count(count), &asked)?;
                }
            }
            none_later(comparison, random, records, part)?;
        }
    }
    Ok(())
}

/// A list with these starts, and behind it so many numbers of a further record, whose start is among them or is not:
/// it is later than all others, or than none, or any number.
fn with_part(random: &mut Random, starts: &[u32], part: usize) -> List {
    let mut list = with_starts(random, starts, part);
    let start = random.number();
    let start = random.pick(&[0, u32::MAX, start]);
    if part > START {
        list.set(starts.len(), START, &[start]);
    }
    list
}

/// No record is later, so that all that the count and the buffer have are looked at.
fn none_later(comparison: &mut Comparison, random: &mut Random, records: usize, part: usize) -> Result<(), String> {
    let starts = shapes::any(random, records, START_END as usize);
    let list = with_part(random, &starts, part);
    for count in counts(records, part) {
        let all = count.min(records);
        comparison.finds(Place { place: all, looked: all }, &list.with_count(count), START_END)?;
    }
    Ok(())
}

/// Counts for a buffer of so many records and a part of one. Some are so great that six times as many numbers, or the
/// count in 32 bits, would come out small.
fn counts(records: usize, part: usize) -> Vec<usize> {
    let sixth = usize::MAX / NUMBERS + 1;
    let below = [0, 1, records / 2, records.saturating_sub(1)].map(|count| count.min(records));
    let above = [records, records + 1, records + 2, 2 * records + 9, NUMBERS * records + part];
    let great = [1 << 32, (1 << 32) + records / 2, sixth - 1, sixth, sixth + records / 2, 1 << 63];
    let mut counts = [&below[..], &above, &great, &[usize::MAX - 1, usize::MAX]].concat();
    counts.dedup();
    counts
}

/// Some starts on and beside records, the first and the last among them.
fn some_around(random: &mut Random, starts: &[u32]) -> Vec<u32> {
    let ends = [starts.first(), starts.last()].into_iter().flatten().copied();
    let between = (0..starts.len().min(2)).map(|_| random.pick(starts));
    around(&ends.chain(between).collect::<Vec<_>>())
}
