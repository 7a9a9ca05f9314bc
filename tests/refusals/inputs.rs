//! Records, chains and commands to provoke refusals with.

use crate::chirdaluko::{Caller, Record};

/// One descriptor without bytes, and a byte that begins none that is whole.
pub const DAY: [u8; 3] = [0x4D, 0x00, 0x4D];

/// How many bytes `tagged` has.
pub const TAGGED: u32 = 7;

pub const UNDO: u8 = 0x04;

/// An event of a minute without marks and descriptors.
pub fn event(id: u32, start: u32) -> Record {
    Record { id, start, duration: 60, ..Record::default() }
}

/// So many events of segment 0, of five seconds each, one after the other.
pub fn row(count: usize) -> Vec<Record> {
    (0..count as u32).map(|place| Record { duration: 5, ..event(place, 5 * place) }).collect()
}

/// How many events without descriptors a section holds.
pub fn events_in_section(caller: Caller) -> usize {
    (caller.section_max() - 18) / 12
}

/// The records' numbers.
pub fn numbers(records: &[Record]) -> Vec<u32> {
    records.iter().flat_map(|&record| <[u32; 6]>::from(record)).collect()
}

pub fn put(record: Record) -> Vec<u8> {
    let Record { id, start, duration, marks, offset, chain_length } = record;
    let mut bytes = vec![0x01];
    bytes.extend(&(id as u16).to_be_bytes());
    bytes.extend(&start.to_be_bytes());
    bytes.extend(&duration.to_be_bytes());
    bytes.push(marks as u8);
    bytes.extend(&offset.to_be_bytes());
    bytes.extend(&(chain_length as u16).to_be_bytes());
    bytes
}

pub fn withdraw(id: u16) -> Vec<u8> {
    [&[0x02][..], &id.to_be_bytes()].concat()
}

pub fn shift(id: u16, start: u32) -> Vec<u8> {
    [&[0x03][..], &id.to_be_bytes(), &start.to_be_bytes()].concat()
}

/// A chain of so many bytes, which are not 1: descriptors of 257 bytes, and a last one of the rest; if that would be 1,
/// the one before it has 256.
pub fn chain(mut length: usize) -> Vec<u8> {
    let mut bytes = Vec::new();
    while length > 0 {
        let descriptor = if length == 258 { 256 } else { length.min(257) };
        bytes.extend([0x4D, (descriptor - 2) as u8]);
        bytes.resize(bytes.len() + descriptor - 2, 0x20);
        length -= descriptor;
    }
    bytes
}

/// Two descriptors, a chain unless the tag is 0xFF: a content_descriptor, and one with this tag, whose one byte is
/// 0xFF.
pub fn tagged(tag: u8) -> [u8; TAGGED as usize] {
    [0x54, 0x02, 0x10, 0x00, tag, 0x01, 0xFF]
}
