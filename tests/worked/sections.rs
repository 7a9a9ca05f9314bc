//! Files section by section: taken apart by their lengths, and put together by hand.

use crate::chirdaluko::{crc32, RECORD};
use crate::schedule::IDENTITY;

/// The sections of a file, each with its offset.
pub fn of(file: &[u8]) -> Vec<(usize, &[u8])> {
    let mut sections = Vec::new();
    let mut offset = 0;
    while offset < file.len() {
        let section_length = u16::from_be_bytes([file[offset + 1] & 0x0F, file[offset + 2]]);
        let next = offset + 3 + usize::from(section_length);
        sections.push((offset, &file[offset..next]));
        offset = next;
    }
    sections
}

/// The sections of a file that have events: segment index, place in the segment, event bytes.
pub fn with_events(file: &[u8]) -> Vec<(usize, usize, &[u8])> {
    let index = |section: &[u8]| 32 * usize::from(section[0] - 0x50) + usize::from(section[6] / 8);
    let sections = of(file).into_iter().map(|(_, section)| section).filter(|section| section.len() > 18);
    sections.map(|section| (index(section), usize::from(section[6] % 8), &section[14..section.len() - 4])).collect()
}

/// A line for each section. A record's descriptors stand in the section of its event, even if there are none.
pub fn cuts(file: &[u8], records: &[u32]) -> Vec<String> {
    let mut lines = vec!["offset table section events".to_string()];
    for (offset, section) in of(file) {
        let within = offset..offset + section.len();
        let events = records.chunks(RECORD).filter(|record| within.contains(&(record[4] as usize))).count();
        lines.push(format!("{offset} 0x{:02X} {} {events}", section[0], section[6]));
    }
    lines
}

/// A section with these numbers and events: table_id, section_number, segment_last_section_number, last_section_number,
/// last_table_id.
pub fn section([table, number, segment_last, last, last_table]: [u8; 5], events: &[Vec<u8>]) -> Vec<u8> {
    let events = events.concat();
    let mut section = vec![table];
    section.extend(&(0xF000 | 15 + events.len() as u16).to_be_bytes());
    section.extend(&IDENTITY.service_id.to_be_bytes());
    section.extend([0xC1 | IDENTITY.versions[usize::from(table - 0x50)] << 1, number, last]);
    section.extend(&IDENTITY.transport_stream_id.to_be_bytes());
    section.extend(&IDENTITY.original_network_id.to_be_bytes());
    section.extend([segment_last, last_table]);
    section.extend(events);
    let crc = crc32(&section);
    section.extend(&crc.to_be_bytes());
    section
}

/// An event of the base day 49,273 without descriptors, of a minute: id, hours and minutes as BCD digits.
pub fn event(id: u8, hours: u8, minutes: u8) -> Vec<u8> {
    vec![0, id, 0xC0, 0x79, hours, minutes, 0x00, 0x00, 0x01, 0x00, 0x00, 0x00]
}
