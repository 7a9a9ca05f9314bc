//! The bytes of a section and of its events: 01, "The file of sections", and 02, W-208.

use super::crc_table::crc32_by_table;
use super::event::{Event, Pools};

const FREE_CA_MODE: u32 = 1;
const OFF_AIR: u32 = 4;
const RUNNING_STATUS_OFF_AIR: u16 = 5;
const DAY_SECONDS: u32 = 86_400;

/// Where section_length stands, behind it the bytes that it counts, and among them the version.
const LENGTH_AT: usize = 1;
const COUNTED_FROM: usize = 3;
pub const VERSION_AT: usize = 5;
pub const CRC_BYTES: usize = 4;

/// What a file's sections have in common.
#[derive(Clone, Copy, Debug, Default, PartialEq)]
pub struct Triplet {
    pub service_id: u16,
    pub transport_stream_id: u16,
    pub original_network_id: u16,
}

/// 02, W-208: "identity now has sixteen versions", table 0x50's first.
#[derive(Clone, Copy, Debug, Default, PartialEq)]
pub struct Identity {
    pub triplet: Triplet,
    pub versions: [u8; 16],
}

/// A section's own numbers.
#[derive(Clone, Copy)]
pub struct Header {
    pub table_id: u8,
    /// The same in every section of the table.
    pub version: u8,
    pub section_number: u8,
    pub last_section_number: u8,
    pub segment_last_section_number: u8,
    pub last_table_id: u8,
}

impl Header {
    /// Appends the section with these events to the file.
    pub fn write(&self, triplet: Triplet, base_day: u32, events: &[Event], pools: Pools, file: &mut Vec<u8>) {
        let first = file.len();
        file.extend([self.table_id, 0, 0]);
        file.extend(triplet.service_id.to_be_bytes());
        file.extend([version_byte(self.version), self.section_number, self.last_section_number]);
        file.extend(triplet.transport_stream_id.to_be_bytes());
        file.extend(triplet.original_network_id.to_be_bytes());
        file.extend([self.segment_last_section_number, self.last_table_id]);
        for event in events {
            write_event(event, base_day, pools, file);
        }
        let length = file.len() - first - COUNTED_FROM + CRC_BYTES;
        let field = 0xF000 | length as u16;
        file[first + LENGTH_AT..first + COUNTED_FROM].copy_from_slice(&field.to_be_bytes());
        let crc = crc32_by_table(&file[first..]);
        file.extend(crc.to_be_bytes());
    }
}

/// Gives a section another version, and the CRC_32 that it has with it.
pub fn set_version(section: &mut [u8], version: u8) {
    section[VERSION_AT] = version_byte(version);
    let (covered, crc) = section.split_at_mut(section.len() - CRC_BYTES);
    crc.copy_from_slice(&crc32_by_table(covered).to_be_bytes());
}

/// Bits 11, the version, current_next 1.
fn version_byte(version: u8) -> u8 {
    0b1100_0001 | version << 1
}

fn write_event(event: &Event, base_day: u32, pools: Pools, file: &mut Vec<u8>) {
    let running_status = if event.marks & OFF_AIR != 0 { RUNNING_STATUS_OFF_AIR } else { 0 };
    let free_ca = (event.marks & FREE_CA_MODE) as u16;
    let chain = pools.part(event).unwrap_or_default();
    file.extend((event.id as u16).to_be_bytes());
    file.extend(((base_day + event.start / DAY_SECONDS) as u16).to_be_bytes());
    file.extend(digits(event.start % DAY_SECONDS));
    file.extend(digits(event.duration));
    file.extend((running_status << 13 | free_ca << 12 | chain.len() as u16).to_be_bytes());
    file.extend(chain);
}

/// Hours, minutes and seconds as six BCD digits.
fn digits(seconds: u32) -> [u8; 3] {
    [seconds / 3_600, seconds / 60 % 60, seconds % 60].map(|number| (number / 10 << 4 | number % 10) as u8)
}
