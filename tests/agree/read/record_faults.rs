//! Faults of the records that Read writes, and of where it writes: each stands in for the library, and must show.

use super::comparison::{ReadCall, RECORDS_MAX};
use crate::other::{check, read, refused, Caller, Reading};

pub const ALL: [(&str, ReadCall); 18] = [
    // The record buffer.
    ("writes no records", |caller, file, base_day, records| read(caller, file, base_day, &mut records.to_vec())),
    ("writes before it says 25", |caller, file, base_day, records| {
        let reading = read(caller, file, base_day, records);
        if reading.number == 25 && !file.is_empty() && !records.is_empty() {
            records[0] ^= 1;
        }
        reading
    }),
    ("writes before it says 24", |caller, file, base_day, records| {
        let reading = read(caller, file, base_day, records);
        if reading.number == 24 && !records.is_empty() {
            records[0] ^= 1;
        }
        reading
    }),
    ("writes what fits where the buffer is short", |caller, file, base_day, records| {
        let reading = read(caller, file, base_day, records);
        if reading.number == 27 {
            let mut whole = vec![0; RECORDS_MAX];
            read(caller, file, base_day, &mut whole);
            records.copy_from_slice(&whole[..records.len()]);
        }
        reading
    }),
    ("clears the numbers beyond 6 x count", |caller, file, base_day, records| {
        let reading = read(caller, file, base_day, records);
        if reading.number == 0 {
            records[6 * reading.count..].fill(0);
        }
        reading
    }),
    ("needs a number more than it writes", |caller, file, base_day, records| {
        let reading = read(caller, file, base_day, &mut records.to_vec());
        if reading.number == 0 && records.len() == 6 * reading.count {
            refused(27, reading.count)
        } else {
            read(caller, file, base_day, records)
        }
    }),
    ("needs 12,288 numbers", |caller, file, base_day, records| {
        let reading = check(caller, file, base_day);
        if reading.number == 0 && records.len() < RECORDS_MAX {
            refused(27, reading.count)
        } else {
            read(caller, file, base_day, records)
        }
    }),
    // Records.
    ("gives an offset one too high", |caller, file, base_day, records| {
        each(caller, file, base_day, records, |record| record[4] += 1)
    }),
    ("gives the offset of the event", |caller, file, base_day, records| {
        each(caller, file, base_day, records, |record| record[4] -= 12)
    }),
    ("gives offset 0 without descriptors", |caller, file, base_day, records| {
        each(caller, file, base_day, records, |record| record[4] *= record[5].min(1))
    }),
    ("gives an offset in sixteen bits", |caller, file, base_day, records| {
        each(caller, file, base_day, records, |record| record[4] &= 0xFFFF)
    }),
    ("gives marks with 2", |caller, file, base_day, records| {
        each(caller, file, base_day, records, |record| record[3] |= 2)
    }),
    ("loses free_CA_mode", |caller, file, base_day, records| {
        each(caller, file, base_day, records, |record| record[3] &= 4)
    }),
    ("loses off air", |caller, file, base_day, records| each(caller, file, base_day, records, |record| record[3] &= 1)),
    ("gives a start in its day", |caller, file, base_day, records| {
        each(caller, file, base_day, records, |record| record[1] %= 86_400)
    }),
    ("gives a start in its table", |caller, file, base_day, records| {
        each(caller, file, base_day, records, |record| record[1] %= 345_600)
    }),
    ("begins a duration's hours again after 23", |caller, file, base_day, records| {
        each(caller, file, base_day, records, |record| record[2] = (record[2] - 1) % 86_400 + 1)
    }),
    ("loses the highest bit of an id", |caller, file, base_day, records| {
        each(caller, file, base_day, records, |record| record[0] &= 0x7FFF)
    }),
];

/// Read with each record changed.
fn each(caller: Caller, file: &[u8], base_day: u32, records: &mut [u32], change: fn(&mut [u32])) -> Reading {
    let reading = read(caller, file, base_day, records);
    if reading.number == 0 {
        records.chunks_mut(6).take(reading.count).for_each(change);
    }
    reading
}
