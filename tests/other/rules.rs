//! The rules that a section of a file keeps, each with the number of its refusal, in the order in which they are
//! checked: 01, "The file of sections" and "When a call says no", and 02, W-204, W-206 and W-208.

use super::before::Before;
use super::crc_table::crc32_by_table;
use super::event::is_chain;
use super::received::{two_digits, Received, ReceivedEvent, TABLE_IDS};
use super::section::Header;
use std::collections::HashSet;

pub const RUNNING_STATUS_OFF_AIR: u8 = 5;
const SEGMENT_SECONDS: i64 = 10_800;

/// What is asked of a section, and the number of the refusal if it does not hold.
#[derive(Clone, Copy)]
pub struct Rule {
    pub number: u32,
    pub says: &'static str,
    pub holds: fn(&Received, &Before) -> bool,
}

pub const RULES: [Rule; 31] = [
    rule(21, "CRC_32 leaves 0", |section, _| crc32_by_table(section.bytes) == 0),
    rule(22, "bits 1111", |section, _| section.bytes[1] >> 4 == 0b1111),
    rule(22, "bits 11", |section, _| section.bytes[5] >> 6 == 0b11),
    rule(22, "current_next 1", |section, _| section.bytes[5] & 1 == 1),
    rule(22, "one service_id", |section, before| before.has(section, |triplet, _| triplet.service_id)),
    rule(22, "one transport_stream_id", |section, before| {
        before.has(section, |triplet, _| triplet.transport_stream_id)
    }),
    rule(22, "one original_network_id", |section, before| {
        before.has(section, |triplet, _| triplet.original_network_id)
    }),
    rule(22, "one version in a table", |section, before| before.has_version(section)),
    rule(22, "one last_table_id", |section, before| before.has(section, |_, header| header.last_table_id)),
    rule(22, "last_table_id in range", |section, _| TABLE_IDS.contains(&section.header.last_table_id)),
    rule(23, "at most last_table_id", |section, _| section.header.table_id <= section.header.last_table_id),
    rule(23, "the next table and section_number", |section, before| section.header.place() == before.next_place()),
    rule(23, "one G in a segment", |section, before| {
        section.header.is_first() || before.has(section, |_, header| header.segment_last_section_number)
    }),
    rule(23, "one L in a table", |section, before| {
        section.header.section_number == 0 || before.has(section, |_, header| header.last_section_number)
    }),
    rule(23, "S <= G <= L", |section, _| {
        let Header { section_number, segment_last_section_number, last_section_number, .. } = section.header;
        section_number <= segment_last_section_number && segment_last_section_number <= last_section_number
    }),
    rule(23, "G <= s0 + 7", |section, _| section.header.segment_last_section_number <= section.header.highest()),
    rule(23, "G = L or L >= s0 + 8", |section, _| {
        let Header { segment_last_section_number, last_section_number, .. } = section.header;
        segment_last_section_number == last_section_number || last_section_number > section.header.highest()
    }),
    rule(24, "events up to the end", |section, _| section.ends_well),
    rule(24, "without events, alone in its segment", |section, _| {
        let Header { section_number, segment_last_section_number, .. } = section.header;
        !section.events.is_empty() || section.header.is_first() && segment_last_section_number == section_number
    }),
    rule(24, "digits of starts", |section, _| section.events.iter().all(|event| are_digits(event.start_digits))),
    rule(24, "hours of starts", |section, _| {
        section.events.iter().all(|event| two_digits(event.start_digits[0]) <= 23)
    }),
    rule(24, "minutes and seconds of starts", |section, _| {
        section.events.iter().all(|event| are_sixtieths(event.start_digits))
    }),
    rule(24, "digits of durations", |section, _| section.events.iter().all(|event| are_digits(event.duration_digits))),
    rule(24, "minutes and seconds of durations", |section, _| {
        section.events.iter().all(|event| are_sixtieths(event.duration_digits))
    }),
    rule(24, "durations of a second or more", |section, _| section.events.iter().all(|event| event.duration > 0)),
    rule(24, "running_status 0 or 5", |section, _| {
        section.events.iter().all(|event| [0, RUNNING_STATUS_OFF_AIR].contains(&event.running_status))
    }),
    rule(24, "chains", |section, _| section.events.iter().all(|event| is_chain(event.chain))),
    // A start in one of the 512 segments is in a record's range.
    rule(24, "starts in the section's segment", |section, _| {
        let index = section.header.segment_index();
        section.events.iter().all(|event| event.start.div_euclid(SEGMENT_SECONDS) == index)
    }),
    // With durations of a second or more, starts rise.
    rule(24, "no overlap with the event before", |section, before| {
        let times = section.events.iter().map(ReceivedEvent::times);
        before.last_times.into_iter().chain(times).is_sorted_by(|event, next| event.end <= next.start)
    }),
    rule(24, "ids that differ", |section, before| {
        let mut ids = HashSet::new();
        section.events.iter().all(|event| !before.ids.contains(&event.id) && ids.insert(event.id))
    }),
    rule(26, "no event too many", |section, before| section.events.len() <= before.events_left),
];

const fn rule(number: u32, says: &'static str, holds: fn(&Received, &Before) -> bool) -> Rule {
    Rule { number, says, holds }
}

fn are_digits(bytes: [u8; 3]) -> bool {
    bytes.iter().all(|byte| byte >> 4 <= 9 && byte & 0x0F <= 9)
}

/// Whether minutes and seconds are at most 59.
fn are_sixtieths(digits: [u8; 3]) -> bool {
    digits[1..].iter().all(|two| two_digits(*two) <= 59)
}
