//! The fields of an event in its section, which can be changed.

use super::file::set_twelve_bits;

pub const EVENT_FRONT: usize = 12;

// Where an event has its fields.
pub const ID: usize = 0;
pub const DAY: usize = 2;
pub const START: usize = 4;
pub const DURATION: usize = 7;
pub const STATUS: usize = 10;

const DAY_SECONDS: u32 = 86_400;

pub fn get<const N: usize>(section: &[u8], at: usize) -> [u8; N] {
    section[at..at + N].try_into().expect("a field")
}

pub fn put(section: &mut [u8], at: usize, bytes: &[u8]) {
    section[at..at + bytes.len()].copy_from_slice(bytes);
}

/// Two digits as a number.
pub fn number(two: u8) -> u32 {
    u32::from(10 * (two >> 4) + (two & 0x0F))
}

/// The start of the event there, in seconds after midnight of day 0.
pub fn start(section: &[u8], event: usize) -> i64 {
    let day = u16::from_be_bytes(get(section, event + DAY));
    let [hours, minutes, seconds] = get::<3>(section, event + START).map(|two| i64::from(number(two)));
    i64::from(DAY_SECONDS) * i64::from(day) + 3_600 * hours + 60 * minutes + seconds
}

/// Makes this the start of the event there, if it is on a day from 0 to 65,535.
pub fn set_start(section: &mut [u8], event: usize, start: i64) {
    let day = start.div_euclid(DAY_SECONDS.into()) as u16;
    let seconds = start.rem_euclid(DAY_SECONDS.into()) as u32;
    put(section, event + DAY, &day.to_be_bytes());
    put(section, event + START, &digits([seconds / 3_600, seconds / 60 % 60, seconds % 60]));
}

/// Makes this the duration of the event there, in seconds.
pub fn set_duration(section: &mut [u8], event: usize, seconds: u32) {
    put(section, event + DURATION, &digits([seconds / 3_600, seconds / 60 % 60, seconds % 60]));
}

/// The duration of the event there, in seconds.
pub fn duration(section: &[u8], event: usize) -> u32 {
    let [hours, minutes, seconds] = get::<3>(section, event + DURATION).map(number);
    3_600 * hours + 60 * minutes + seconds
}

/// Two digits for each number, which is at most 99.
pub fn digits(numbers: [u32; 3]) -> [u8; 3] {
    numbers.map(|number| (number / 10 << 4 | number % 10) as u8)
}

/// Makes this the chain length of the event there.
pub fn set_chain_length(section: &mut [u8], event: usize, length: usize) {
    set_twelve_bits(section, event + STATUS, length);
}

pub fn chain_length(section: &[u8], event: usize) -> usize {
    usize::from(section[event + STATUS] & 0x0F) << 8 | usize::from(section[event + STATUS + 1])
}

/// Where the descriptors of the event there start.
pub fn descriptors(section: &[u8], event: usize) -> Vec<usize> {
    let mut starts = Vec::new();
    let mut at = event + EVENT_FRONT;
    let end = at + chain_length(section, event);
    while at < end {
        starts.push(at);
        at += 2 + usize::from(section[at + 1]);
    }
    starts
}

/// Puts a descriptor with this tag and without a body in front of the event's others.
pub fn put_descriptor(section: &mut Vec<u8>, event: usize, tag: u8) {
    let chain = event + EVENT_FRONT;
    let length = 2 + chain_length(section, event);
    section.splice(chain..chain, [tag, 0]);
    set_chain_length(section, event, length);
}
