//! A section's bytes as Read takes them apart, whatever they hold: 01, "The file of sections", and 02, W-206 and W-208.

use super::caller::Sizes;
use super::section::{Header, Triplet};
use std::ops::RangeInclusive;

pub const TABLE_IDS: RangeInclusive<u8> = 0x50..=0x5F;
const DAY_SECONDS: i64 = 86_400;

/// What stands before section_length's bytes, before a section's events, behind them, and before an event's chain.
const COUNTED_FROM: usize = 3;
const FRONT: usize = 14;
const CRC: usize = 4;
const EVENT_FRONT: usize = 12;

/// How the bytes of the next section are found.
pub type Frame = fn(Sizes, &[u8]) -> Option<&[u8]>;

/// The section that these bytes begin with; nothing if it is cut, or its table_id or length is out of range.
pub fn frame(sizes: Sizes, bytes: &[u8]) -> Option<&[u8]> {
    frame_within(TABLE_IDS, sizes.section_lengths(), bytes)
}

/// The same with other ranges than the papers'.
pub fn frame_within(
    table_ids: RangeInclusive<u8>,
    section_lengths: RangeInclusive<usize>,
    bytes: &[u8],
) -> Option<&[u8]> {
    let length = section_length(bytes.get(..COUNTED_FROM)?);
    let in_range = table_ids.contains(&bytes[0]) && section_lengths.contains(&(length - COUNTED_FROM));
    bytes.get(..length).filter(|_| in_range)
}

/// The length in all of the section that these bytes begin with.
pub fn section_length(bytes: &[u8]) -> usize {
    COUNTED_FROM + twelve_bits(&bytes[1..COUNTED_FROM])
}

/// A section that is framed.
pub struct Received<'a> {
    pub bytes: &'a [u8],
    pub triplet: Triplet,
    pub header: Header,
    pub events: Vec<ReceivedEvent<'a>>,
    /// Whether the last event ends where the events do.
    pub ends_well: bool,
}

/// An event, with its start in seconds after midnight of the base day, before which it may be.
pub struct ReceivedEvent<'a> {
    pub id: u16,
    pub start: i64,
    pub start_digits: [u8; 3],
    pub duration: u32,
    pub duration_digits: [u8; 3],
    pub running_status: u8,
    pub free_ca: bool,
    pub chain: &'a [u8],
    /// Where the chain stands in the section.
    pub chain_at: usize,
}

/// When an event begins, and when it is over, in seconds after midnight of the base day.
#[derive(Clone, Copy)]
pub struct Times {
    pub start: i64,
    pub end: i64,
}

impl ReceivedEvent<'_> {
    pub fn times(&self) -> Times {
        Times { start: self.start, end: self.start + i64::from(self.duration) }
    }
}

impl<'a> Received<'a> {
    pub fn new(bytes: &'a [u8], base_day: u32) -> Received<'a> {
        let (events, ends_well) = events(bytes, base_day);
        Received {
            bytes,
            triplet: Triplet {
                service_id: two_bytes(&bytes[3..5]),
                transport_stream_id: two_bytes(&bytes[8..10]),
                original_network_id: two_bytes(&bytes[10..12]),
            },
            header: Header {
                table_id: bytes[0],
                version: bytes[5] >> 1 & 31,
                section_number: bytes[6],
                last_section_number: bytes[7],
                segment_last_section_number: bytes[12],
                last_table_id: bytes[13],
            },
            events,
            ends_well,
        }
    }
}

/// The events as far as they are whole, and whether they end well.
fn events(section: &[u8], base_day: u32) -> (Vec<ReceivedEvent<'_>>, bool) {
    let end = section.len() - CRC;
    let mut events = Vec::new();
    let mut at = FRONT;
    while at < end {
        let chain_at = at + EVENT_FRONT;
        let Some(front) = section[..end].get(at..chain_at) else {
            return (events, false);
        };
        let next = chain_at + twelve_bits(&front[10..]);
        let Some(chain) = section[..end].get(chain_at..next) else {
            return (events, false);
        };
        events.push(event(front, base_day, chain, chain_at));
        at = next;
    }
    (events, true)
}

fn event<'a>(front: &[u8], base_day: u32, chain: &'a [u8], chain_at: usize) -> ReceivedEvent<'a> {
    let start_digits = [front[4], front[5], front[6]];
    let duration_digits = [front[7], front[8], front[9]];
    let days = i64::from(two_bytes(&front[2..4])) - i64::from(base_day);
    ReceivedEvent {
        id: two_bytes(front),
        start: DAY_SECONDS * days + i64::from(seconds(start_digits)),
        start_digits,
        duration: seconds(duration_digits),
        duration_digits,
        running_status: front[10] >> 5,
        free_ca: front[10] >> 4 & 1 == 1,
        chain,
        chain_at,
    }
}

/// The seconds of six digits hhmmss, each of which counts by its place even if it is above 9.
fn seconds(digits: [u8; 3]) -> u32 {
    let [hours, minutes, seconds] = digits.map(|two| u32::from(two_digits(two)));
    3_600 * hours + 60 * minutes + seconds
}

/// Two digits as a number.
pub fn two_digits(byte: u8) -> u8 {
    10 * (byte >> 4) + (byte & 0x0F)
}

fn two_bytes(bytes: &[u8]) -> u16 {
    u16::from_be_bytes([bytes[0], bytes[1]])
}

/// The 12 low bits of two bytes.
fn twelve_bits(bytes: &[u8]) -> usize {
    usize::from(two_bytes(bytes) & 0x0FFF)
}
